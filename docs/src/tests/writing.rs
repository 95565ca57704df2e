//! Writing a card, by the words of E10; the bytes are worked out by hand.

use super::*;
use crate::{write, BYTE_REFUSED, LETTERS_REFUSED, PLACE_REFUSED, ROOM_REFUSED, WRITTEN};

/// A letter as the bytes of a list.
fn letter(byte: u8, across: u16, down: u16) -> [u8; 5] {
    let [across, down] = [across, down].map(u16::to_le_bytes);
    [byte, across[0], across[1], down[0], down[1]]
}

/// The answer with the room asked for.
fn answer(letters: &[[u8; 5]]) -> u8 {
    write(&letters.concat(), 2 + 33 * letters.len()).0
}

fn card(letters: &[[u8; 5]]) -> Vec<u8> {
    let (number, card) = write(&letters.concat(), 2 + 33 * letters.len());
    assert_eq!(number, WRITTEN);
    card
}

#[test]
fn bytes_by_hand() {
    assert_eq!(card(&[]), b"\x1B@");
    assert_eq!(card(&[letter(b'A', 0, 0)]), b"\x1B@\x1B$\x00\x00A");
    let forty = b"\x1B@\x1BJ\x01\x1B$\x00\x01\x1B\\\x02\x00A";
    assert_eq!(card(&[letter(b'A', 15_400, 20)]), forty);
    let whole = b"\x1B@\x1BJ\xFF\x1B$\x01\x00A\x1BJ\xFF\x1BJ\x01\x1B$\x01\x00B";
    let two = [letter(b'A', 60, 5_100), letter(b'B', 60, 10_220)];
    assert_eq!(card(&two), whole);
    assert_eq!(card(&[letter(b'~', 28_420, 39_580)]).len(), 35);
}

#[test]
fn it_reads_back() {
    let letters = [
        letter(b'A', 20, 0),
        letter(b'B', 28_440, 0),
        letter(b'C', 0, 39_580),
    ];
    // 20 units are 1.67 dots, 28,440 are 2,370, 39,580 are 3,298.33
    let expected = [
        ln(0, 255),
        off(-1_200, tx(b'A', 2, 0, 360)),
        tx(b'B', 2_370, 0, 360),
        tx(b'C', 0, 3_298, 360),
    ];
    let records = at_300(&card(&letters)).into_iter();
    let fed = |seen: &Seen| seen.mark == *b"LN" && seen.byte == 0;
    let others: Vec<Seen> = records.filter(|seen| !fed(seen)).collect();
    assert_eq!(others, expected);
}

#[test]
fn refusals() {
    for byte in [0x1F, 0x7F, 0xFF] {
        assert_eq!(answer(&[letter(byte, 0, 0)]), BYTE_REFUSED);
    }
    for (across, down) in [(10, 0), (28_460, 0), (0, 10), (0, 39_600)] {
        assert_eq!(answer(&[letter(b'A', across, down)]), PLACE_REFUSED);
    }
    let falls = [letter(b'A', 0, 20), letter(b'A', 0, 0)];
    assert_eq!(answer(&falls), PLACE_REFUSED);
    // the byte before the place, the first bad letter, the length before all, the room last
    assert_eq!(answer(&[letter(0x7F, 1, 0)]), BYTE_REFUSED);
    let second = [letter(b'A', 1, 0), letter(0x7F, 0, 0)];
    assert_eq!(answer(&second), PLACE_REFUSED);
    assert_eq!(
        write(&letter(0x7F, 1, 0)[..4], 0),
        (LETTERS_REFUSED, vec![])
    );
    assert_eq!(write(&letter(0x7F, 1, 0), 0), (BYTE_REFUSED, vec![]));
    assert_eq!(write(&letter(b'A', 0, 0), 34), (ROOM_REFUSED, vec![]));
    assert_eq!(write(&[], 1), (ROOM_REFUSED, vec![]));
}
