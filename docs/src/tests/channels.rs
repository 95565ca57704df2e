//! Vertical channels: ESC /, ESC b, ESC B and VT.

use super::*;
use crate::{Waiting, CHANNELS};

/// What VT and a letter give: an LF, a stop's row or an empty list's CR.
fn tab(channel: u8) -> [u8; 5] {
    [0x1B, b'/', channel, 0x0B, b'A']
}

/// The state after all of the input.
fn after(input: &[u8]) -> State {
    let (_, mut state) = start(300, false);
    read_all(&mut state, input);
    state
}

/// A list of this command with its bytes, ended by 0.
fn set(command: &[u8], list: &[u8]) -> Vec<u8> {
    [b"\x1B", command, list, b"\x00"].concat()
}

#[test]
fn all_are_never_set_at_power_on_and_channel_0_is_chosen() {
    let (_, state) = start(300, false);
    assert_eq!(state.channels, [const { None }; CHANNELS]);
    assert_eq!(state.chosen, 0);
    for channel in 0..=7 {
        assert_eq!(at_300(&tab(channel))[0], ln(50, 0));
    }
}

#[test]
fn each_channel_has_its_own_stops() {
    for channel in 0..=7 {
        let mut state = after(&set(&[b'b', channel], b"\x02\x05"));
        for other in 0..=7 {
            let stops = state.channels[usize::from(other)].clone();
            let list = stops.as_ref().map(|stops| stops.list());
            assert_eq!(list, (other == channel).then_some(&[1_200, 3_000][..]));
        }
        assert_eq!(state.chosen, 0);
        let records = read_all(&mut state, &tab(channel));
        assert_eq!(records, [ln(100, 0), tx(b'A', 0, 100, 360)]);
        let records = read_all(&mut state, b"\x0B\x0B\x0B");
        assert_eq!(records, [ln(250, 0), ln(0, 1), ln(100, 0)]);
    }
}

#[test]
fn setting_one_leaves_the_others() {
    let mut input = Vec::new();
    for channel in 0..=7 {
        input.extend(set(&[b'b', channel], &[channel + 1, channel + 2]));
    }
    let before = after(&input);
    for channel in 0..=7 {
        let own = usize::from(channel);
        for list in [&b""[..], b"\x09", b"\x01\x02\x03\x04\x05\x06\x07"] {
            let mut state = before.clone();
            read_all(&mut state, &set(&[b'b', channel], list));
            let count = state.channels[own].as_ref().map(|stops| stops.count);
            assert_eq!(count, Some(list.len()));
            state.channels[own] = before.channels[own].clone();
            assert_eq!(state, before);
        }
    }
}

#[test]
fn esc_capital_b_sets_channel_0_and_chooses_nothing() {
    let records = at_300(b"\x1B/\x03\x1BB\x02\x00\x0B");
    assert_eq!(records, [ln(50, 0)]);
    let state = after(b"\x1B/\x03\x1BB\x02\x00");
    assert_eq!(state.chosen, 3);
    let expected = after(b"\x1B/\x03\x1Bb\x00\x02\x00");
    assert_eq!(state, expected);
}

#[test]
fn esc_b_chooses_nothing() {
    assert_eq!(after(b"\x1Bb\x05\x02\x00").chosen, 0);
    assert_eq!(at_300(b"\x1Bb\x05\x02\x00\x0B"), [ln(50, 0)]);
    let records = at_300(b"\x1Bb\x05\x02\x00\x1B/\x05\x0B");
    assert_eq!(records, [ln(100, 0)]);
}

#[test]
fn never_set_and_empty_are_each_channels_own() {
    let records = at_300(b"\x1Bb\x03\x00\x0B\x1B/\x03A\x0BB");
    let row = [ln(50, 0), tx(b'A', 0, 50, 360), tx(b'B', 0, 50, 360)];
    assert_eq!(records, row);
    let records = with_line_feed(b"\x1Bb\x03\x00\x1B/\x03A\x0BB");
    let rows = [tx(b'A', 0, 0, 360), ln(50, 0), tx(b'B', 0, 50, 360)];
    assert_eq!(records, rows);
}

#[test]
fn esc_at_chooses_0_and_makes_all_never_set() {
    let mut input = Vec::new();
    for channel in 0..=7 {
        input.extend(set(&[b'b', channel], b"\x02"));
    }
    input.extend(b"\x1B/\x05\x1B@");
    let (_, power_on) = start(300, false);
    assert_eq!(after(&input), power_on);
    for channel in 0..=7 {
        let input = [&input[..], &tab(channel)].concat();
        let records = at_300(&input);
        assert_eq!(records[1..], [ln(50, 0), tx(b'A', 0, 50, 360)]);
    }
}

#[test]
fn no_channel_above_7_is_chosen() {
    for channel in 8..=255 {
        let input = [0x1B, b'/', 4, 0x1B, b'/', channel];
        assert_eq!(at_300(&input), [no(b'/', 2)]);
        assert_eq!(after(&input).chosen, 4);
    }
}

#[test]
fn the_list_of_no_channel_is_dropped_without_a_record() {
    for channel in 8..=255 {
        let opening = [0x1B, b'b', channel];
        assert_eq!(at_300(&opening), [no(b'b', 2)]);
        assert_eq!(after(&opening).waiting, Waiting::DroppedStops { last: 0 });
        for list in [&b"\x00"[..], b"\x05\x05", b"\x41\x42\x41", b"\xFF\x1B"] {
            let (_, mut state) = start(300, false);
            let before = state.clone();
            assert_eq!(read_all(&mut state, &opening), [no(b'b', 2)]);
            assert_eq!(read_all(&mut state, list), []);
            assert_eq!(state, before);
            assert_eq!(read_all(&mut state, b"A"), [tx(b'A', 0, 0, 360)]);
        }
    }
    let all: Vec<u8> = (1..=255).chain([255, b'A']).collect();
    let records = at_300(&[&b"\x1Bb\x08"[..], &all].concat());
    assert_eq!(records, [no(b'b', 2), tx(b'A', 0, 0, 360)]);
}

/// "the same list rules": ESC b and ESC B give the same records and stops.
#[test]
fn the_list_rules_of_esc_capital_b() {
    let many: Vec<u8> = (1..=40).collect();
    let lists = [
        &b""[..],
        b"\x02\x05",
        b"\x05\x05",
        b"\x05\x02",
        b"\x41\x42\x43",
        &many[..16],
        &many[..17],
        &many,
    ];
    let settings = [
        &b""[..],
        b"\x1BN\x01",
        b"\x1B3\x00",
        b"\x1BC\x06",
        b"\x1B/\x07",
    ];
    for setting in settings {
        for list in lists {
            let by_capital = [setting, b"\x1BB", list, b"\x00"].concat();
            let capital = after(&by_capital);
            for channel in 0..=7 {
                let input = [setting, b"\x1Bb", &[channel], list, b"\x00"].concat();
                assert_eq!(at_300(&input), at_300(&by_capital));
                let mut state = after(&input);
                state.channels.swap(0, channel.into());
                assert_eq!(state, capital);
            }
        }
    }
}

#[test]
fn the_first_list_byte_is_compared_with_0() {
    for channel in 0..=7 {
        let records = at_300(&[0x1B, b'b', channel, 1, 0, 0x1B, b'/', channel, 0x0B]);
        assert_eq!(records, [ln(50, 0)]);
        let stops = after(&[0x1B, b'b', channel, 1, 0]).channels;
        assert_eq!(stops[usize::from(channel)].as_ref().unwrap().list(), [600]);
    }
}

#[test]
fn a_seventeenth_stop_and_one_at_the_edge_are_passed_over() {
    let many: Vec<u8> = (1..=17).collect();
    let input = set(b"b\x07", &many);
    assert_eq!(at_300(&input), [no(17, 3)]);
    let stops = after(&input).channels[7].clone().unwrap();
    assert_eq!((stops.count, stops.stops[15]), (16, 9_600));
    assert_eq!(at_300(b"\x1BN\x01\x1Bb\x00\x41\x00"), [no(0x41, 3)]);
    assert_eq!(at_300(b"\x1Bb\x00\x41\x00"), []);
}

/// A list that is cut by the end of input replaces nothing.
#[test]
fn an_unended_list_replaces_nothing() {
    let mut state = after(b"\x1Bb\x02\x03\x00\x1Bb\x02\x05");
    let waiting = Waiting::VerticalStops {
        channel: 2,
        last: 5,
    };
    assert_eq!(state.waiting, waiting);
    assert_eq!(state.channels[2].as_ref().unwrap().list(), [1_800]);
    read_all(&mut state, b"\x05");
    assert_eq!(state.channels[2].as_ref().unwrap().list(), [3_000]);
}

#[test]
fn vt_ends_so_in_every_channel() {
    for channel in 0..=7 {
        for list in [&b""[..], b"\x00", b"\x02\x00"] {
            let mut input = Vec::new();
            if !list.is_empty() {
                input.extend([0x1B, b'b', channel]);
                input.extend(list);
            }
            input.push(0x0E);
            input.extend(&tab(channel)[..4]);
            assert_eq!(advance_after(&input), 360);
        }
    }
}

#[test]
fn after_esc_7_the_commands_begin_with_9b() {
    let records = at_300(b"\x1B7\x9Bb\x06\x02\x00\x9B/\x06\x8B");
    assert_eq!(records, [ln(100, 0)]);
}
