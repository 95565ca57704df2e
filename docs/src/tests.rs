//! Tests by the words of the rules.

mod answers;
mod bounds;
mod channels;
mod hand_checked;
mod images;
mod interlock;
mod narrow_paper;
mod open_points;
mod slot;
mod writing;

use crate::records::RECORD_SIZE;
use crate::{read_in_runs, Report, State, ROOM_FOR_A_BYTE};

/// A record taken apart.
#[derive(Clone, Copy, PartialEq, Eq, Debug)]
struct Seen {
    mark: [u8; 2],
    column: u16,
    row: u16,
    byte: u8,
    font: u8,
    style: u16,
    country: u8,
    advance: u16,
    rest: i16,
}

const NONE: Seen = Seen {
    mark: [0; 2],
    column: 0,
    row: 0,
    byte: 0,
    font: 0,
    style: 0,
    country: 0,
    advance: 0,
    rest: 0,
};

fn no(byte: u8, reason: u16) -> Seen {
    Seen {
        mark: *b"NO",
        byte,
        style: reason,
        ..NONE
    }
}

fn ln(row: u16, pages: u8) -> Seen {
    Seen {
        mark: *b"LN",
        row,
        byte: pages,
        ..NONE
    }
}

fn cl() -> Seen {
    Seen {
        mark: *b"CL",
        ..NONE
    }
}

fn tx(letter: u8, column: u16, row: u16, advance: u16) -> Seen {
    Seen {
        mark: *b"TX",
        column,
        row,
        byte: letter,
        advance,
        ..NONE
    }
}

fn im(byte: u8, column: u16, row: u16, units: u16) -> Seen {
    Seen {
        mark: *b"IM",
        ..tx(byte, column, row, units)
    }
}

/// A record with this rest.
fn off(rest: i16, seen: Seen) -> Seen {
    Seen { rest, ..seen }
}

/// A record with the rest of its column at 300 dots, where it is to stand so
/// many units from the left.
fn exactly(units: u32, seen: Seen) -> Seen {
    let rest = 300 * i64::from(units) - 3_600 * i64::from(seen.column);
    off(rest.try_into().unwrap(), seen)
}

fn apart(record: &[u8]) -> Seen {
    let word = |at: usize| u16::from_le_bytes([record[at], record[at + 1]]);
    assert_eq!(record[11], 0);
    Seen {
        mark: [record[0], record[1]],
        column: word(2),
        row: word(4),
        byte: record[6],
        font: record[7],
        style: word(8),
        country: record[10],
        advance: word(12),
        rest: word(14) as i16,
    }
}

/// A start on the widest paper.
fn start(dots: u32, auto_feed: bool) -> (u8, State) {
    crate::start(dots, auto_feed, 28_800)
}

/// Reads byte by byte, and sees that reading in runs gives the same.
fn read(state: &mut State, input: &[u8], allowance: usize, out: &mut [u8]) -> Report {
    let mut in_runs = (state.clone(), out.to_vec());
    let report_in_runs = read_in_runs(&mut in_runs.0, input, allowance, &mut in_runs.1);
    let report = crate::read(state, input, allowance, out);
    assert_eq!(report_in_runs, report);
    assert_eq!((&in_runs.0, &in_runs.1[..]), (&*state, &*out));
    report
}

/// Reads all of the input with room enough.
fn read_all(state: &mut State, input: &[u8]) -> Vec<Seen> {
    let mut out = vec![0; ROOM_FOR_A_BYTE * (input.len() + 1)];
    let report = read(state, input, input.len(), &mut out);
    assert_eq!((report.answer, report.read), (0, input.len()));
    let records = out[..report.written].chunks(RECORD_SIZE);
    records.map(apart).collect()
}

fn at_300(input: &[u8]) -> Vec<Seen> {
    read_all(&mut start(300, false).1, input)
}

fn with_line_feed(input: &[u8]) -> Vec<Seen> {
    read_all(&mut start(300, true).1, input)
}

fn columns(records: &[Seen]) -> Vec<u16> {
    let letters = records.iter().filter(|record| record.mark == *b"TX");
    letters.map(|record| record.column).collect()
}

/// The advance of a letter after this input.
fn advance_after(input: &[u8]) -> u16 {
    let mut input = input.to_vec();
    input.push(b'A');
    let last = at_300(&input).pop().unwrap();
    assert_eq!(last.mark, *b"TX");
    last.advance
}
