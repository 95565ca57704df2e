//! ESC i, by which the interlock begins each job.

use super::*;
use crate::Waiting;

/// Inputs that leave states of all sorts, waiting for nothing.
const BEFORE: [&[u8]; 6] = [
    b"",
    b"AB\x0E",
    b"\x1BE\x1BM\x1B4\x1Bx0\x1Bk\x07\x1BR\x0D\x0F",
    b"\x1Bl\x05\x1BQ\x14\x1B3\x3C\x0AA\x1BN\x05\x1BJ\x07",
    b"\x1BD\x05\x0A\x00\x1BB\x02\x03\x00\x09A",
    b"\x1B7A\x8E",
];

/// What this input writes after each of those before it, which must leave the
/// state as it was.
fn written(input: &[u8]) -> Vec<Seen> {
    let mut all = BEFORE.iter().map(|before| {
        let (_, mut state) = start(203, true);
        read_all(&mut state, before);
        let expected = state.clone();
        let records = read_all(&mut state, input);
        assert_eq!(state, expected);
        records
    });
    let first = all.next().unwrap();
    assert!(all.all(|records| records == first));
    first
}

#[test]
fn the_present_mode_and_the_status_leave_all_as_it_was() {
    assert_eq!(written(b"\x1Bia\x00"), []);
    assert_eq!(written(b"\x1BiS"), []);
    assert_eq!(written(b"\x1BiS\x1Bia\x00\x1BiS"), []);
}

#[test]
fn other_modes_are_not_allowed() {
    for mode in 1..=255 {
        assert_eq!(written(&[0x1B, b'i', b'a', mode]), [no(b'i', 2)]);
    }
}

#[test]
fn other_third_bytes_are_used_up() {
    for third in (0..=255).filter(|third| !b"aS".contains(third)) {
        assert_eq!(written(&[0x1B, b'i', third]), [no(third, 1)]);
    }
    assert_eq!(at_300(b"\x1Bi\x1B\x40"), [no(0x1B, 1), tx(b'@', 0, 0, 360)]);
    let letter = tx(b'a', 0, 0, 360);
    assert_eq!(at_300(b"\x1Biia\x00"), [no(b'i', 1), letter, no(0, 1)]);
}

/// After ESC 7 the bytes of ESC i but the first are taken as they are.
#[test]
fn upper_codes_inside_it() {
    let letter = tx(b'A', 0, 0, 360);
    assert_eq!(at_300(b"\x1B7\x1Bi\x8AA"), [no(0x8A, 1), letter]);
    assert_eq!(at_300(b"\x1B7\x9Bi\x8AA"), [no(0x8A, 1), letter]);
    assert_eq!(at_300(b"\x1B7\x9Bia\x80A"), [no(b'i', 2), letter]);
    assert_eq!(at_300(b"\x1B7\x9Bia\x00\x9BiSA"), [letter]);
    let printed = [(0x9B, 0), (b'i', 30), (b'a', 60)];
    let printed = printed.map(|(letter, column)| tx(letter, column, 0, 360));
    assert_eq!(at_300(b"\x9Bia\x00"), [&printed[..], &[no(0, 1)]].concat());
}

#[test]
fn what_is_waited_for_after_each_byte() {
    let (_, mut state) = start(300, false);
    let mut after = |byte: u8| {
        let records = read_all(&mut state, &[byte]);
        (state.waiting, records)
    };
    assert_eq!(after(0x1B), (Waiting::SecondByte, vec![]));
    assert_eq!(after(b'i'), (Waiting::ThirdByte, vec![]));
    assert_eq!(after(b'a'), (Waiting::CommandMode, vec![]));
    assert_eq!(after(b'a'), (Waiting::Nothing, vec![no(b'i', 2)]));
    after(0x1B);
    after(b'i');
    assert_eq!(after(b'S'), (Waiting::Nothing, vec![]));
    after(0x1B);
    after(b'i');
    assert_eq!(after(b's'), (Waiting::Nothing, vec![no(b's', 1)]));
}
