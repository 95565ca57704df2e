//! The bounds of a state, field by field.

use super::*;
use crate::state::MOST_HORIZONTAL_STOPS;
use crate::{ChannelStops, Stops, Waiting, CHANNELS};

/// Whether the power-on state is accepted after this change.
fn accepts(change: impl Fn(&mut State)) -> bool {
    let (_, mut state) = start(300, false);
    change(&mut state);
    let expected = state.clone();
    let report = read(&mut state, b"", 0, &mut []);
    assert_eq!(state, expected);
    assert_eq!(report.answer == 0, state.accepted());
    state.accepted()
}

/// The stops 1, 2 .. so many, as far as there are slots.
fn ascending<const SLOTS: usize>(count: usize) -> Stops<SLOTS> {
    let mut stops = Stops::EMPTY;
    (1..=count.min(SLOTS)).for_each(|stop| stops.add(stop as u32));
    stops.count = count;
    stops
}

#[test]
fn numbers() {
    assert!(accepts(|s| s.resolution = 203));
    assert!(!accepts(|s| s.resolution = 200));
    assert!(!accepts(|s| s.paper_width = 28_799));
    assert!(!accepts(|s| s.paper_width = 28_801));
    assert!(accepts(|s| s.pitch = 15));
    assert!(!accepts(|s| s.pitch = 11));
    assert!(accepts(|s| s.line_amount = 5_100));
    assert!(!accepts(|s| s.line_amount = 5_101));
    assert!(accepts(|s| s.spacing = 127));
    assert!(!accepts(|s| s.spacing = 128));
    assert!(accepts(|s| s.country = 13));
    assert!(accepts(|s| s.country = 64));
    assert!(!accepts(|s| s.country = 14));
    assert!(accepts(|s| s.character_style = 3));
    assert!(!accepts(|s| s.character_style = 4));
}

#[test]
fn narrow_paper() {
    let on_paper = |width, right| {
        accepts(|s| {
            s.paper_width = width;
            s.right = right;
        })
    };
    assert!(on_paper(7_200, 7_200) && !on_paper(7_200, 7_201));
    assert!(!on_paper(7_199, 7_199) && !on_paper(7_199, 1));
    assert!(on_paper(7_201, 7_200) && on_paper(7_201, 7_201) && !on_paper(7_201, 7_202));
    assert!(on_paper(28_799, 28_799) && !on_paper(28_799, 28_800));
    assert!(on_paper(28_800, 28_800) && !on_paper(28_801, 28_800));
    assert!(!on_paper(0, 1) && !on_paper(u32::MAX, 28_800));
}

#[test]
fn places() {
    assert!(accepts(|s| s.across = 28_800));
    assert!(!accepts(|s| s.across = 28_801));
    assert!(!accepts(|s| s.left = 1));
    assert!(!accepts(|s| s.right = 28_801));
    assert!(!accepts(|s| s.right = 0));
    assert!(accepts(|s| s.down = 39_599));
    assert!(!accepts(|s| s.down = 39_600));
    assert!(accepts(|s| s.page_length = 79_200));
    assert!(!accepts(|s| s.page_length = 79_201));
    assert!(accepts(|s| s.page_length = 3_600));
    assert!(!accepts(|s| s.page_length = 3_599));
    assert!(accepts(|s| s.skip = 36_000));
    assert!(!accepts(|s| s.skip = 36_001));
    assert!(!accepts(|s| s.skip = u32::MAX));
}

#[test]
fn stops_in_force() {
    assert!(!accepts(|s| s.horizontal.count = 10));
    assert!(!accepts(|s| s.horizontal.count = 33));
    assert!(!accepts(|s| s.horizontal.count = usize::MAX));
    assert!(!accepts(|s| s.horizontal.stops[8] = 64));
    assert!(accepts(|s| s.horizontal.stops[8] = 255));
    assert!(!accepts(|s| s.horizontal.stops[8] = 256));
    assert!(accepts(|s| s.horizontal.stops[9] = 1));
    assert!(accepts(|s| s.horizontal = ascending(32)));
}

/// Each channel has the bounds of vertical stops, whichever is chosen.
#[test]
fn channels_in_force() {
    for (channel, chosen) in (0..CHANNELS).zip([0, 7, 2, 0, 4, 5, 1, 7]) {
        let set = |stops: ChannelStops| {
            accepts(|s| {
                s.channels[channel] = Some(stops.clone());
                s.chosen = chosen;
            })
        };
        let stops = |count, list: &[u32]| {
            let mut stops = ChannelStops::EMPTY;
            stops.stops[..list.len()].copy_from_slice(list);
            stops.count = count;
            set(stops)
        };
        assert!(stops(0, &[]) && stops(0, &[7, 7, u32::MAX]));
        assert!(!stops(1, &[0]) && stops(1, &[1]));
        assert!(stops(1, &[79_199]) && !stops(1, &[79_200]) && !stops(1, &[u32::MAX]));
        assert!(stops(1, &[5, 4]) && !stops(2, &[5, 4]) && !stops(2, &[5, 5]));
        assert!(stops(2, &[5, 6]) && !stops(3, &[5, 6]) && !stops(usize::MAX, &[1]));
        assert!(set(ascending(15)) && set(ascending(16)));
        for count in [17, 18, 32, 33, 256, 65_536] {
            assert!(!set(ascending(count)), "{count}");
        }
    }
    assert!(accepts(
        |s| s.channels = [const { Some(ChannelStops::EMPTY) }; CHANNELS]
    ));
}

#[test]
fn the_chosen_channel_is_0_to_7() {
    for chosen in 0..=255 {
        assert_eq!(accepts(|s| s.chosen = chosen), chosen <= 7, "{chosen}");
    }
}

/// Of a list being dropped nothing is gathered, and its last byte is free.
#[test]
fn lists_being_dropped() {
    for last in 0..=255 {
        assert!(accepts(|s| s.waiting = Waiting::DroppedStops { last }));
    }
}

#[test]
fn a_list_being_gathered_is_for_a_channel() {
    for channel in 0..=255 {
        for last in [0, 1, 255] {
            let waiting = Waiting::VerticalStops { channel, last };
            assert_eq!(accepts(|s| s.waiting = waiting), channel <= 7);
        }
    }
}

#[test]
fn lists_being_gathered() {
    let horizontal = |last, count, stop| {
        accepts(|s| {
            s.waiting = Waiting::HorizontalStops { last };
            s.gathered.count = count;
            s.gathered.stops[0] = stop;
        })
    };
    assert!(horizontal(255, 0, 0));
    assert!(horizontal(7, 1, 7));
    assert!(!horizontal(6, 1, 7));
    assert!(!horizontal(6, 1, 0));
    assert!(!horizontal(6, 33, 1));
    let vertical = |last, count, stop| {
        accepts(|s| {
            s.waiting = Waiting::VerticalStops { channel: 3, last };
            s.gathered.count = count;
            s.gathered.stops[0] = stop;
        })
    };
    assert!(vertical(0, 0, 0));
    assert!(vertical(2, 1, 1_200));
    assert!(!vertical(2, 1, 1_201));
    assert!(!vertical(2, 33, 1));
}

#[test]
fn a_list_being_gathered_has_the_limits_of_its_kind() {
    let gathering = |waiting, count| {
        accepts(|s| {
            s.waiting = waiting;
            s.gathered = ascending(count);
        })
    };
    let horizontal = Waiting::HorizontalStops { last: 255 };
    let vertical = Waiting::VerticalStops {
        channel: 7,
        last: 255,
    };
    for count in [0, 1, 16] {
        assert!(gathering(horizontal, count) && gathering(vertical, count));
    }
    for count in [17, 32] {
        assert!(gathering(horizontal, count) && !gathering(vertical, count));
    }
    let one = |waiting, stop| {
        accepts(|s| {
            s.waiting = waiting;
            s.gathered.count = 1;
            s.gathered.stops[0] = stop;
        })
    };
    assert!(one(horizontal, 255) && one(vertical, 255));
    assert!(!one(horizontal, 256) && one(vertical, 256));
    assert!(one(vertical, 79_199) && !one(vertical, 79_200));
}

#[test]
fn the_gathering_place_is_free_while_no_list_is_gathered() {
    for waiting in [
        Waiting::Nothing,
        Waiting::SecondByte,
        Waiting::ThirdByte,
        Waiting::CommandMode,
        Waiting::DroppedStops { last: 9 },
    ] {
        for count in [0, 33, usize::MAX] {
            let any = Stops {
                stops: [u32::MAX; MOST_HORIZONTAL_STOPS],
                count,
            };
            assert!(accepts(|s| {
                s.waiting = waiting;
                s.gathered = any.clone();
            }));
        }
    }
}

#[test]
fn a_list_begins_empty_and_leaves_the_gathering_place_empty() {
    let (_, mut state) = start(300, false);
    state.gathered = ascending(9);
    read_all(&mut state, b"\x1BD\x05");
    assert_eq!(state.gathered.list(), [5]);
    read_all(&mut state, b"\x00\x1BB\x02");
    assert_eq!(state.gathered.list(), [1_200]);
    read_all(&mut state, b"\x00");
    assert_eq!(state.horizontal.list(), [5]);
    assert_eq!(state.vertical_stops(), Some(&[1_200][..]));
    assert_eq!(state.gathered, Stops::EMPTY);
    read_all(&mut state, b"\x1Bb\x05\x03");
    assert_eq!(state.gathered.list(), [1_800]);
    read_all(&mut state, b"\x00\x1Bb\x08\x03\x00");
    assert_eq!(state.gathered, Stops::EMPTY);
}

#[test]
fn arguments_so_far() {
    let arguments = |command, given, first| {
        accepts(|s| {
            s.waiting = Waiting::Arguments {
                command,
                given,
                first,
            }
        })
    };
    for command in b"3A+JNlQpSxWw-%tRqk !/b" {
        assert!(arguments(*command, 0, 9));
        assert!(!arguments(*command, 1, 0));
    }
    for command in b"$\\KLYZ" {
        assert!(arguments(*command, 0, 9));
        assert!(arguments(*command, 1, 255));
        assert!(!arguments(*command, 2, 0));
    }
    assert!(arguments(b'C', 0, 9));
    assert!(arguments(b'C', 1, 0));
    assert!(!arguments(b'C', 1, 1));
    let listed = (0..=255).filter(|&command| arguments(command, 0, 0));
    assert_eq!(listed.count(), 29);
}

/// ESC i has places of its own, and none among the arguments.
#[test]
fn the_places_of_esc_i() {
    for waiting in [Waiting::ThirdByte, Waiting::CommandMode] {
        assert!(accepts(|s| s.waiting = waiting));
    }
    for given in [0, 1, 2] {
        for first in 0..=255 {
            let command = b'i';
            let waiting = Waiting::Arguments {
                command,
                given,
                first,
            };
            assert!(!accepts(|s| s.waiting = waiting));
        }
    }
}

#[test]
fn image_data() {
    let image = |mode, nth, columns| accepts(|s| s.waiting = Waiting::Image { mode, nth, columns });
    for (modes, bytes) in [(ONE_BYTE, 1), (THREE_BYTES, 3)] {
        for &mode in modes {
            for nth in 1..=bytes {
                assert!(image(mode, nth, 1) && image(mode, nth, 65_535));
                assert!(!image(mode, nth, 0) && !image(mode, nth, 65_536));
                assert!(!image(mode, nth, u32::MAX));
            }
            for nth in (bytes + 1..=255).chain([0]) {
                assert!(!image(mode, nth, 1));
            }
        }
    }
    for mode in unlisted() {
        assert!((0..=4).all(|nth| !image(mode, nth, 1)), "mode {mode}");
    }
}

const ONE_BYTE: &[u8] = &[0, 1, 2, 3, 4, 6];
const THREE_BYTES: &[u8] = &[32, 33, 38, 39, 40];

fn unlisted() -> impl Iterator<Item = u8> {
    let listed = |mode: &u8| ONE_BYTE.contains(mode) || THREE_BYTES.contains(mode);
    (0..=255).filter(move |mode| !listed(mode))
}

/// ESC * has places of its own, and none among the arguments.
#[test]
fn the_places_of_esc_star() {
    assert!(accepts(|s| s.waiting = Waiting::ImageMode));
    let low = |mode| accepts(|s| s.waiting = Waiting::ColumnsLow { mode });
    let high = |mode, low| accepts(|s| s.waiting = Waiting::ColumnsHigh { mode, low });
    for &mode in ONE_BYTE.iter().chain(THREE_BYTES) {
        assert!(low(mode) && (0..=255).all(|low| high(mode, low)));
    }
    for mode in unlisted() {
        assert!(!low(mode) && !high(mode, 0) && !high(mode, 255));
    }
    for given in [0, 1, 2, 3] {
        let waiting = Waiting::Arguments {
            command: b'*',
            given,
            first: 39,
        };
        assert!(!accepts(|s| s.waiting = waiting));
    }
}

#[test]
fn the_greatest_values_of_every_field() {
    let (_, mut state) = start(300, false);
    state.line_amount = u32::MAX;
    state.page_length = u32::MAX;
    state.across = u32::MAX;
    state.right = u32::MAX;
    state.gathered.count = 1;
    state.gathered.stops = [u32::MAX; MOST_HORIZONTAL_STOPS];
    state.waiting = Waiting::VerticalStops {
        channel: 255,
        last: 255,
    };
    state.chosen = 255;
    assert!(!state.accepted());
}
