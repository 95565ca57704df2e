//! What stands in a range of columns now. Letters are told by their byte.

use super::*;
use crate::{slot, ANSWERED, LIST_REFUSED};

/// The record as its bytes.
fn bytes(seen: &Seen) -> [u8; RECORD_SIZE] {
    let mut bytes = [0; RECORD_SIZE];
    bytes[..2].copy_from_slice(&seen.mark);
    bytes[2..4].copy_from_slice(&seen.column.to_le_bytes());
    bytes[4..6].copy_from_slice(&seen.row.to_le_bytes());
    bytes[6] = seen.byte;
    bytes[7] = seen.font;
    bytes[8..10].copy_from_slice(&seen.style.to_le_bytes());
    bytes[10] = seen.country;
    bytes[12..14].copy_from_slice(&seen.advance.to_le_bytes());
    bytes[14..].copy_from_slice(&seen.rest.to_le_bytes());
    bytes
}

fn list(records: &[Seen]) -> Vec<u8> {
    records.iter().flat_map(bytes).collect()
}

/// A letter at this column, on a row that is no column asked for.
fn at(column: u16, letter: u8) -> Seen {
    tx(letter, column, 7, 360)
}

/// A record with this mark that is a letter in all else.
fn marked(mark: &[u8; 2], column: u16) -> Seen {
    Seen {
        mark: *mark,
        ..at(column, b'?')
    }
}

/// The number in the list of the record found, if one is.
fn found(records: &[Seen], from: u16, to: u16) -> Option<usize> {
    let (number, part) = slot(&list(records), from, to);
    assert_eq!(number, ANSWERED);
    if part.is_empty() {
        assert_eq!(part, 0..0);
        return None;
    }
    assert_eq!(part.len(), RECORD_SIZE);
    assert_eq!(part.start % RECORD_SIZE, 0);
    Some(part.start / RECORD_SIZE)
}

/// The letter found in the records of an input, if one is.
fn letter(input: &[u8], from: u16, to: u16) -> Option<u8> {
    let records = at_300(input);
    found(&records, from, to).map(|number| records[number].byte)
}

#[test]
fn the_last_in_the_range() {
    let records = [at(100, b'A'), at(200, b'B'), at(150, b'C'), at(300, b'D')];
    assert_eq!(found(&records, 100, 200), Some(2));
    assert_eq!(found(&records, 151, 299), Some(1));
    assert_eq!(found(&records, 0, 149), Some(0));
    assert_eq!(found(&records, 0, 65_535), Some(3));
    assert_eq!(found(&records, 201, 299), None);
    assert_eq!(slot(&list(&records), 100, 200), (0, 32..48));
}

#[test]
fn both_ends_are_in() {
    let records = [at(1_200, b'R')];
    for (from, to) in [(1_200, 1_200), (1_200, 1_201), (1_199, 1_200)] {
        assert_eq!(found(&records, from, to), Some(0));
    }
    assert_eq!(found(&records, 1_201, 65_535), None);
    assert_eq!(found(&records, 0, 1_199), None);
    assert_eq!(found(&[at(65_535, b'R')], 65_535, 65_535), Some(0));
    assert_eq!(found(&[at(0, b'R')], 0, 0), Some(0));
}

/// The column counts, not the row, the byte, or where the advance reaches.
#[test]
fn the_column_alone() {
    let record = tx(200, 90, 200, 200);
    assert_eq!(found(&[record], 200, 200), None);
    assert_eq!(found(&[record], 91, 199), None);
    assert_eq!(found(&[record], 90, 90), Some(0));
    assert_eq!(found(&[at(0x1234, b'A')], 0x3412, 0x3412), None);
}

#[test]
fn a_above_b_finds_nothing() {
    let records = [at(100, b'A'), at(101, b'B'), at(65_535, b'C'), at(0, b'D')];
    for (from, to) in [(101, 100), (65_535, 0), (1, 0), (65_535, 65_534)] {
        assert_eq!(found(&records, from, to), None);
    }
}

#[test]
fn an_empty_list() {
    assert_eq!(slot(&[], 0, 65_535), (0, 0..0));
    assert_eq!(slot(&[], 1, 0), (0, 0..0));
}

#[test]
fn a_length_beside_a_multiple() {
    let records = list(&[at(100, b'A'), at(100, b'B'), at(100, b'C')]);
    for length in 0..=records.len() {
        let answer = match length {
            0 => (0, 0..0),
            16 => (0, 0..16),
            32 => (0, 16..32),
            48 => (0, 32..48),
            _ => (5, 0..0),
        };
        assert_eq!(slot(&records[..length], 0, 65_535), answer, "{length}");
    }
}

/// Refusals first.
#[test]
fn a_length_beside_a_multiple_and_a_above_b() {
    for length in [1, 14, 15, 17, 28, 31, 33] {
        assert_eq!(slot(&vec![0; length], 9, 3), (LIST_REFUSED, 0..0));
    }
}

#[test]
fn cl_voids_the_line() {
    let line = [at(100, b'A'), at(100, b'B'), cl()];
    assert_eq!(found(&line, 100, 100), None);
    let again = [&line[..], &[at(100, b'C')]].concat();
    assert_eq!(found(&again, 100, 100), Some(3));
    let twice = [&again[..], &[cl()]].concat();
    assert_eq!(found(&twice, 100, 100), None);
    let at_once = [&again[..], &[cl(), cl()]].concat();
    assert_eq!(found(&at_once, 100, 100), None);
}

/// What a CL has voided no LN brings back.
#[test]
fn void_letters_stay_void() {
    assert_eq!(found(&[at(5, b'A'), cl(), ln(50, 0)], 5, 5), None);
    let records = [at(5, b'A'), ln(50, 0), at(5, b'B'), cl(), ln(99, 0), cl()];
    assert_eq!(found(&records, 5, 5), Some(0));
}

#[test]
fn ln_0_shields() {
    let shielded = [at(5, b'A'), ln(50, 0), at(5, b'B'), cl()];
    assert_eq!(found(&shielded, 5, 5), Some(0));
    let later = [&shielded[..], &[cl(), at(5, b'C'), cl()]].concat();
    assert_eq!(found(&later, 5, 5), Some(0));
    assert_eq!(found(&[at(5, b'A'), ln(0, 0), cl()], 5, 5), Some(0));
    assert_eq!(letter(b"A\nB\x1Bl\x00", 0, 30), Some(b'A'));
    assert_eq!(letter(b"A\x1BJ\x00\x1Bl\x00", 0, 30), Some(b'A'));
    assert_eq!(letter(b"A\x1Bl\x00", 0, 30), None);
}

#[test]
fn the_page_is_turned() {
    for pages in [1, 2, 128, 255] {
        assert_eq!(found(&[at(5, b'A'), ln(0, pages)], 5, 5), None);
        let next = [at(5, b'A'), ln(0, pages), at(5, b'B')];
        assert_eq!(found(&next, 5, 5), Some(2));
        assert_eq!(found(&[ln(0, pages), at(5, b'A')], 5, 5), Some(1));
    }
    assert_eq!(letter(b"A\x0C", 0, 30), None);
    assert_eq!(letter(b"A\x1B@", 0, 30), None);
    assert_eq!(letter(b"A\x0CBC\n", 0, 30), Some(b'C'));
}

#[test]
fn cl_after_a_page() {
    let records = [at(5, b'A'), ln(50, 0), ln(0, 1), cl()];
    assert_eq!(found(&records, 5, 5), None);
    let records = [ln(0, 255), at(5, b'A'), cl(), at(5, b'B')];
    assert_eq!(found(&records, 5, 5), Some(3));
    assert_eq!(found(&records[..3], 5, 5), None);
}

/// Marks of other records, and of none, count for nothing: they are not
/// found, they do not shield, and they do not void.
#[test]
fn other_marks() {
    let marks = [
        b"IM", b"NO", b"XT", b"tx", b"TY", b"SX", b"NL", b"LM", b"ln", b"LC", b"CM", b"DL", b"\0\0",
    ];
    for mark in marks {
        let other = marked(mark, 5);
        assert_eq!(found(&[other], 5, 5), None);
        assert_eq!(found(&[at(5, b'A'), other], 5, 5), Some(0));
        assert_eq!(found(&[at(5, b'A'), other, cl()], 5, 5), None);
        let shielded = [at(5, b'A'), ln(50, 0), other, cl(), other];
        assert_eq!(found(&shielded, 5, 5), Some(0));
    }
}

/// Slot 4, where a card has RELEASED under it, and where a line that has it is
/// void.
#[test]
fn a_card() {
    let card: &[u8] = b"\x1BD\x0A\x14\x1E\x28\x32\x3C\x46\x00SLOT\t1\t2\t3\t4\r\n\
        STATE\t\t\t\tRELEASED\r\n";
    assert_eq!(letter(card, 1_200, 1_229), Some(b'R'));
    assert_eq!(letter(card, 1_100, 1_499), Some(b'D'));
    assert_eq!(letter(card, 900, 929), Some(b'3'));
    let voided = [card, b"STATE\t\t\t\tLOCKED\x1Bl\x00"].concat();
    assert_eq!(letter(&voided, 1_200, 1_229), Some(b'R'));
    let next = [&voided, &b"\x0CSLOT\t1"[..]].concat();
    assert_eq!(letter(&next, 1_200, 1_229), None);
    assert_eq!(letter(&next, 300, 329), Some(b'1'));
}
