//! Paper of a width that a start chooses.

use super::*;

/// A start at 300 dots on paper of this width, which it takes.
fn on_paper(width: u32) -> State {
    let (answer, state) = crate::start(300, false, width);
    assert_eq!(answer, 0);
    state
}

/// Reads all of the input from such a start.
fn records_on(width: u32, input: &[u8]) -> Vec<Seen> {
    read_all(&mut on_paper(width), input)
}

#[test]
fn any_whole_unit_in_the_range_is_taken() {
    for width in [7_200, 7_201, 7_559, 20_000, 28_799, 28_800] {
        let state = on_paper(width);
        assert_eq!((state.paper_width, state.right), (width, width));
        assert!(state.accepted());
    }
}

#[test]
fn a_refused_start_keeps_nothing() {
    let refused = (3, State::power_on(300, false, 28_800));
    for width in [0, 1, 7_199, 28_801, 65_536 + 7_200, u32::MAX] {
        for dots in [300, 203, 0] {
            assert_eq!(crate::start(dots, true, width), refused);
        }
    }
    assert_eq!(crate::start(202, true, 7_200), refused);
}

#[test]
fn letters_wrap_at_the_width() {
    for (width, fit) in [(7_200, 20), (7_559, 20), (7_560, 21), (28_800, 80)] {
        let records = records_on(width, &[b'A'; 81]);
        assert_eq!(records[fit - 1].column, 30 * (fit as u16 - 1));
        assert_eq!(records[fit], ln(50, 0));
    }
}

#[test]
fn the_right_margin_goes_up_to_the_width() {
    assert_eq!(records_on(7_200, b"\x1BQ\x14"), [cl()]);
    assert_eq!(records_on(7_200, b"\x1BQ\x15"), [no(b'Q', 3)]);
    assert_eq!(records_on(7_559, b"\x1BQ\x15"), [no(b'Q', 3)]);
    assert_eq!(records_on(7_560, b"\x1BQ\x15"), [cl()]);
    assert_eq!(records_on(7_200, b"\x1Bl\x13"), [cl()]);
    assert_eq!(records_on(7_200, b"\x1Bl\x14"), [no(b'l', 3)]);
}

#[test]
fn power_on_comes_back_on_the_same_paper() {
    let mut state = on_paper(7_200);
    read_all(&mut state, b"\x1BQ\x05\x1Bl\x02A\x1B@");
    assert_eq!(state, on_paper(7_200));
}

#[test]
fn default_stops_stay() {
    assert_eq!(on_paper(7_200).horizontal, on_paper(28_800).horizontal);
    let records = records_on(7_200, b"\tA\tB\t");
    assert_eq!(columns(&records), [240, 480]);
    assert_eq!(records[2], no(b'\t', 5));
    // at 15 cpi column 24 is at 5,760 units
    let records = records_on(7_200, b"\x1Bg\t\t\tA");
    assert_eq!(columns(&records), [480]);
}
