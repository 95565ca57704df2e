//! The answers 0 to 4 and their order.

use super::*;

/// A report of so many records.
fn report(answer: u8, read: usize, records: usize) -> Report {
    Report {
        answer,
        read,
        written: records * RECORD_SIZE,
    }
}

/// A call at power-on, with its report; output past the count is untouched.
fn call(input: &[u8], allowance: usize, room: usize) -> Report {
    let (_, mut state) = start(300, false);
    let mut out = vec![0xEE; room];
    let report = read(&mut state, input, allowance, &mut out);
    assert!(out[report.written..].iter().all(|&byte| byte == 0xEE));
    report
}

#[test]
fn starts() {
    for dots in [300, 203] {
        for auto_feed in [false, true] {
            let expected = State::power_on(dots, auto_feed, 28_800);
            assert_eq!(start(dots, auto_feed), (0, expected));
        }
    }
    for dots in [0, 200, 202, 204, 299, 301, u32::MAX] {
        let expected = State::power_on(300, false, 28_800);
        assert_eq!(start(dots, true), (3, expected));
    }
}

#[test]
fn input_used_up_comes_first() {
    assert_eq!(call(b"", 0, 0), report(0, 0, 0));
    assert_eq!(call(b"AB", 2, 3 * RECORD_SIZE - 1), report(2, 1, 1));
    assert_eq!(call(b"AB", 2, 3 * RECORD_SIZE), report(0, 2, 2));
    assert_eq!(call(b"A", 1, ROOM_FOR_A_BYTE), report(0, 1, 1));
}

#[test]
fn allowance_comes_before_room() {
    assert_eq!(call(b"A", 0, 0), report(1, 0, 0));
    assert_eq!(call(b"AB", 1, ROOM_FOR_A_BYTE), report(1, 1, 1));
    assert_eq!(call(b"AB", 1, 1000), report(1, 1, 1));
}

#[test]
fn room_for_two_records_is_asked_before_each_byte() {
    assert_eq!(call(b"A", 1, ROOM_FOR_A_BYTE - 1), report(2, 0, 0));
    assert_eq!(call(b"\x1B", 1, ROOM_FOR_A_BYTE - 1), report(2, 0, 0));
    assert_eq!(call(b"\x1BE", 9, ROOM_FOR_A_BYTE), report(0, 2, 0));
    assert_eq!(call(b"ABC", 9, 3 * RECORD_SIZE), report(2, 2, 2));
}

#[test]
fn a_refused_state_comes_before_all_else() {
    let (_, mut state) = start(300, false);
    state.down = 39_600;
    let before = state.clone();
    for input in [&b""[..], b"A"] {
        for allowance in [0, 1] {
            let mut out = [0xEE; ROOM_FOR_A_BYTE];
            let answer = read(&mut state, input, allowance, &mut out);
            assert_eq!(answer, report(4, 0, 0));
            assert_eq!(out, [0xEE; ROOM_FOR_A_BYTE]);
            assert_eq!(state, before);
        }
    }
}

#[test]
fn pieces_make_the_whole() {
    let input = b"AB\x1BD\x04\x09\x00\x09C\x1BK\x03\x00\x1B\x40\x00\x1BC\x00\x0B\x0DZ\x0A";
    let (_, mut whole) = start(203, true);
    let records = read_all(&mut whole, input);
    let (_, mut pieces) = start(203, true);
    let mut joined = Vec::new();
    for byte in input {
        joined.extend(read_all(&mut pieces, &[*byte]));
    }
    assert_eq!((pieces, joined), (whole, records));
}
