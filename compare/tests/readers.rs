//! The readers held against each other, and cases told as text.

use compare::arbitrary;
use compare::calls::{calls, room_for, Call};
use compare::fields::fields;
use compare::generate::{ONE_BYTE_MODES, THREE_BYTE_MODES};
use compare::hold::{difference, outcomes, Case, Tally};
use compare::random::Random;
use compare::registers::{follows, plain};
use compare::text;
use ierbulosc::{State as Registers, COLUMNS, RECORD_SIZE, REGISTERS};

#[test]
fn no_difference_in_a_small_run() {
    let mut tally = Tally::default();
    for seed in 0..500 {
        let calls = calls(&mut Random::new(seed));
        let case = Case { state: None, calls };
        assert_eq!(difference(&case, &mut tally), None, "{}", text::text(&case));
        let case = arbitrary::case(&mut Random::new(seed));
        assert_eq!(difference(&case, &mut tally), None, "{}", text::text(&case));
    }
    assert!(tally.calls > 5_000 && tally.bytes > 50_000, "{tally:?}");
}

#[test]
fn text_tells_the_case() {
    for seed in 0..500 {
        let calls = calls(&mut Random::new(seed));
        let list = Case { state: None, calls };
        for case in [list, arbitrary::case(&mut Random::new(seed))] {
            assert_eq!(text::case(&text::text(&case)), Ok(case));
        }
    }
}

#[test]
fn text_that_tells_no_case() {
    let lines = [
        "begin",
        "start 300",
        "start 300 maybe",
        "set pitch 12",
        "state\nset pitch 4294967296",
        "state\nset depth 1",
        "state\nstate",
        "read 1",
        "read 1 99 A",
        "read 1 99 +A",
        "read -1 99",
        "read 0 99\nset pitch 12",
    ];
    for line in lines {
        assert!(text::case(line).is_err(), "{line}");
    }
}

#[test]
fn a_case_from_text() {
    let case = text::case("state\nset across 28801\nread 2 56 41 0A\n").unwrap();
    let came = outcomes(&case);
    assert_eq!(came[0].0.answer, 4);
    assert_eq!(came[0].0.state, case.state);
    let case = text::case("start 203 on\nread 3 99 41 0d 42").unwrap();
    let last = &outcomes(&case)[1].0;
    let came = (last.answer, last.read, last.written);
    assert_eq!(came, (0, 3, 3 * RECORD_SIZE));
    assert!(matches!(case.calls[1], Call::Read { room: 99, .. }));
}

/// Numbers at, beside and far from every bound, and the own one with more
/// above its low bits.
fn numbers(own: u32) -> impl Iterator<Item = u32> {
    const LIMITS: [u32; 34] = [
        0, 1, 2, 3, 4, 5, 6, 7, 8, 10, 11, 12, 13, 14, 15, 16, 17, 18, 32, 33, 64, 65, 127, 128,
        200, 203, 255, 256, 300, 3_600, 5_100, 5_101, 7_199, 7_200,
    ];
    const FAR: [u32; 8] = [
        28_800,
        28_801,
        39_600,
        65_535,
        65_536,
        79_199,
        79_200,
        u32::MAX,
    ];
    let beside = [own.wrapping_sub(1), own.wrapping_add(1)];
    let above = [8, 16, 24, 31].map(|bit| own.wrapping_add(1 << bit));
    LIMITS.into_iter().chain(FAR).chain(beside).chain(above)
}

/// Each register at, inside and outside its bounds, and nothing else changed
/// but, for every second state, what follows from it: both readers take the
/// same states, and leave the others as they came.
#[test]
fn each_register_at_its_bounds() {
    let mut random = Random::new(11);
    let mut tally = Tally::default();
    let mut taken = [[0, 0]; REGISTERS];
    for turn in 0..160 {
        let base = match turn {
            0 | 1 => gathering(&mut random),
            _ => arbitrary::accepted(&mut random),
        };
        for (at, taken) in taken.iter_mut().enumerate() {
            let own = base.registers()[at];
            for number in numbers(own).filter(|&number| number != own) {
                let mut registers = base.registers();
                registers[at] = number;
                let mut state = Registers::from_registers(registers);
                if turn % 2 == 0 {
                    state = follows(&state);
                }
                let case = Case {
                    state: Some(state),
                    calls: vec![reading(b"A\tB\r\n\x1BE\x0BC")],
                };
                assert_eq!(difference(&case, &mut tally), None, "{}", text::text(&case));
                let accepted = plain(&state).is_some_and(|state| state.accepted());
                taken[usize::from(accepted)] += u64::from(state != base);
            }
        }
    }
    let mut state = Registers::from_registers([0; REGISTERS]);
    for (field, [refused, accepted]) in fields(&mut state).iter().zip(taken) {
        let name = field.name;
        assert!(refused > 0, "{name}");
        assert_eq!(accepted == 0, name.is_derived(), "{name}: {accepted}");
    }
}

/// Registers inside the bounds that gather as many columns as there may be.
fn gathering(random: &mut Random) -> Registers {
    let full = |state: &Registers| {
        state.kind == ierbulosc::STOP_LIST && state.gathered.count == COLUMNS as u32
    };
    let mut states = std::iter::repeat_with(|| arbitrary::accepted(random));
    states.find(full).expect("there is no end of states")
}

/// ESC i waited for in every kind, with every byte so far and some numbers
/// above: both readers take the same states, and read on the same.
#[test]
fn every_place_of_esc_i() {
    let mut random = Random::new(13);
    let mut tally = Tally::default();
    for kind in (0..=7).chain([255, 256, 258, 259]) {
        for argument in (0..=256).chain([0x153, 0x161, 0x1_0061, u32::MAX]) {
            for (image_columns, above) in [(0, 0), (1, 0), (0, 256)] {
                let case = Case {
                    state: Some(Registers {
                        kind,
                        command: u32::from(b'i') + above,
                        argument,
                        image_columns,
                        ..arbitrary::accepted(&mut random)
                    }),
                    calls: vec![reading(&[random.byte(), 0]), reading(b"A\x1BiSB")],
                };
                assert_eq!(difference(&case, &mut tally), None, "{}", text::text(&case));
            }
        }
    }
}

/// Lists of stops waited for, of each channel and of none, dropped or not, with
/// every byte before and numbers beside them: both readers take the same states,
/// and read on the same.
#[test]
fn every_place_of_lists() {
    let mut random = Random::new(17);
    let mut tally = Tally::default();
    let mut places = Vec::new();
    for number in (0..=256).chain([0x107, 0x1_0007, u32::MAX]) {
        for command in [0, 0x42, 0x44, 0x62, 0x142, 0x1_0042] {
            for kind in [4, 7] {
                places.push([kind, command, number, 0, 0, 0]);
                places.push([kind, command, number, 7, 0, 0]);
                places.push([kind, command, 9, number, 0, 0]);
                places.push([kind, command, 9, 0, number, 0]);
                places.push([kind, command, 9, 0, 0, number]);
            }
        }
        for command in [0x2F, 0x62] {
            places.push([2, command, number, 0, 0, 0]);
            places.push([2, command, 0, number, 0, 0]);
            places.push([3, command, number, 0, 0, 0]);
        }
        places.push([7, number, 9, 0, 0, 0]);
        places.push([number, 0x42, 9, 7, 0, 0]);
        places.push([number, 0, 9, 0, 0, 0]);
    }
    for place in places {
        for gathered in [0, 1] {
            let mut registers = arbitrary::accepted(&mut random).registers();
            registers[..6].copy_from_slice(&place);
            registers[74] = gathered;
            registers[75] = 1;
            let state = Some(Registers::from_registers(registers));
            let calls = vec![
                reading(&[random.byte(), 255, 0]),
                reading(b"A\x0BB\x1B/\x07\x0BC\x1B/\x00\x0BD"),
            ];
            let case = Case { state, calls };
            assert_eq!(difference(&case, &mut tally), None, "{}", text::text(&case));
        }
    }
}

/// Every number of a channel, chosen and set, with lists of some lengths, cut
/// after each byte, after ESC 6 and after ESC 7, begun by 1Bh and by 9Bh.
#[test]
fn every_number_of_a_channel() {
    let mut tally = Tally::default();
    let many: Vec<u8> = (1..=18).collect();
    for (upper, first) in [(b'6', 0x1B), (b'7', 0x1B), (b'7', 0x9B)] {
        for channel in 0..=255 {
            for list in [&many[..0], &many[1..2], &many[..16], &many[..17], &many] {
                let set = [&[first, b'b', channel][..], list, &[0]].concat();
                let used = [first, b'/', channel, 0x0B, b'A', 0x0B, b'B', 0x8B];
                let input = [&set[..], &used, b"\x1BB\x03\x03\x0BC\x1B@\x0BD"].concat();
                let mut calls = vec![Call::Start(Default::default())];
                calls.push(reading(&[0x1B, upper, 0x0E]));
                calls.push(reading(&input));
                calls.push(reading(&[0x1B, upper]));
                calls.extend(input.iter().map(|&byte| reading(&[byte])));
                let case = Case { state: None, calls };
                assert_eq!(difference(&case, &mut tally), None, "{}", text::text(&case));
            }
        }
    }
}

/// Each channel set while each is chosen: VT in each tells them apart.
#[test]
fn every_channel_set_while_another_is_chosen() {
    let mut tally = Tally::default();
    for chosen in 0..8 {
        for set in 0..8 {
            let mut input = vec![0x1B, b'b', 7 - set, 3, 9, 0];
            input.extend([0x1B, b'/', chosen, 0x1B, b'b', set, 2, 5, 7, 0]);
            input.extend(b"\x0BA\x0BB\x0BC\x1BB\x04\x00\x0BD");
            for channel in 0..8 {
                input.extend([0x0C, 0x1B, b'/', channel, 0x0B, b'0' + channel]);
            }
            input.extend(b"\x1B@\x0BE");
            let calls = vec![Call::Start(Default::default()), reading(&input)];
            let case = Case { state: None, calls };
            assert_eq!(difference(&case, &mut tally), None, "{}", text::text(&case));
        }
    }
}

/// ESC * and image data waited for in every mode, with every byte of a column
/// and numbers beside them: both readers take the same states, and read on the
/// same.
#[test]
fn every_place_of_images() {
    let mut random = Random::new(16);
    let mut tally = Tally::default();
    let star = u32::from(b'*');
    let mut places = Vec::new();
    for mode in (0..=256).chain([0x127, 0x1_0027, u32::MAX]) {
        for byte in (0..=4).chain([255, 256, 257, u32::MAX]) {
            for columns in [0, 1, 2, 65_535, 65_536] {
                places.push([5, 0, 0, mode, byte, columns]);
            }
        }
        for low in [0, 1, 255, 256] {
            places.push([6, star, low, mode, 0, 0]);
        }
        for (command, argument) in [(star, 0), (0, 1), (75, 0), (256, 0), (0, 256)] {
            places.push([5, command, argument, mode, 1, 1]);
        }
        places.extend([
            [2, star, mode, 0, 0, 0],
            [3, star, mode, 0, 0, 0],
            [3, star, mode, 39, 0, 0],
            [3, star, 39, mode, 0, 0],
            [3, star, 39, 0, mode, 0],
            [3, star, 39, 0, 0, mode],
            [6, star, mode, 39, 0, 0],
            [6, star, 1, 39, mode, 0],
            [6, star, 1, 39, 0, mode],
            [6, mode, 1, 39, 0, 0],
            [mode, star, 39, 0, 0, 0],
            [mode, 0, 0, 39, 1, 1],
        ]);
    }
    for place in places {
        let mut registers = arbitrary::accepted(&mut random).registers();
        registers[..6].copy_from_slice(&place);
        let state = Some(Registers::from_registers(registers));
        let calls = vec![
            reading(&[random.byte(), 0]),
            reading(b"A\x1B*\x27\x01\0BCDE"),
        ];
        let case = Case { state, calls };
        assert_eq!(difference(&case, &mut tally), None, "{}", text::text(&case));
    }
}

/// Every mode of ESC *, with some columns, cut after each byte, after ESC 6 and
/// after ESC 7, begun by 1Bh and by 9Bh, within margins that end in the image.
#[test]
fn every_mode_of_esc_star() {
    let mut tally = Tally::default();
    for (upper, first) in [(b'6', 0x1B), (b'7', 0x1B), (b'7', 0x9B)] {
        for mode in 0..=255 {
            for columns in [0, 1, 2, 7] {
                let escape = [first, b'*', mode, columns, 0];
                let input = [&escape[..], b"\x1B@ABCDEFGHIJKLMNOPQRS\x8ATUV"].concat();
                let mut calls = vec![Call::Start(Default::default())];
                calls.push(reading(&[0x1B, upper, 0x1B, b'Q', 1]));
                calls.push(reading(&input));
                calls.push(reading(b"\r\x1BQ\x02\x1B\\\x05\0"));
                calls.extend(input.iter().map(|&byte| reading(&[byte])));
                let case = Case { state: None, calls };
                assert_eq!(difference(&case, &mut tally), None, "{}", text::text(&case));
            }
        }
    }
}

/// As many columns as there may be, in every listed mode, in pieces.
#[test]
fn the_most_columns() {
    let mut tally = Tally::default();
    for mode in ONE_BYTE_MODES.into_iter().chain(THREE_BYTE_MODES) {
        for piece in [1_000, 65_535] {
            let mut input = vec![0x1B, b'*', mode, 255, 255];
            input.extend((0..3 * 65_535).map(|at| (at % 251) as u8));
            let mut calls = vec![Call::Start(Default::default())];
            calls.extend(input.chunks(piece).map(reading));
            let case = Case { state: None, calls };
            assert_eq!(difference(&case, &mut tally), None, "mode {mode}");
        }
    }
}

/// Every third byte of ESC i and every argument, cut after each byte, after
/// ESC 6 and after ESC 7, begun by 1Bh and by 9Bh.
#[test]
fn every_byte_inside_esc_i() {
    let mut tally = Tally::default();
    for (upper, first) in [(b'6', 0x1B), (b'7', 0x1B), (b'7', 0x9B)] {
        for byte in 0..=255 {
            for escape in [vec![first, b'i', byte], vec![first, b'i', b'a', byte]] {
                let mut calls = vec![Call::Start(Default::default())];
                calls.push(reading(&[0x1B, upper, 0x0E]));
                calls.extend(escape.iter().map(|&byte| reading(&[byte])));
                calls.push(reading(b"A\x8AB"));
                calls.push(reading(&[&escape[..], b"\x00A\x8AB"].concat()));
                let case = Case { state: None, calls };
                assert_eq!(difference(&case, &mut tally), None, "{}", text::text(&case));
            }
        }
    }
}

fn reading(input: &[u8]) -> Call {
    Call::Read {
        input: input.to_vec(),
        allowance: usize::MAX,
        room: room_for(input.len()),
    }
}
