//! The two forms of a state tell the same.

use compare::fields::{differing, fields, set};
use compare::random::Random;
use compare::registers::{follows, normal, plain, registers, without_old_places};
use compare::{arbitrary, states};
use ierbulosc::{State as Registers, REGISTERS, ROOM};
use plain_reader::{read, start};

fn power_on() -> Registers {
    registers(&start(300, false, 28_800).1).unwrap()
}

fn names() -> Vec<String> {
    let mut state = power_on();
    let all = fields(&mut state);
    all.iter().map(|field| field.name.to_string()).collect()
}

/// Whether the interface tells a plain state with this register so, and those
/// that follow from it, and whether that is accepted.
fn with(name: &str, number: u32) -> (bool, bool) {
    let mut state = power_on();
    set(&mut state, name, number).unwrap();
    let plain = plain(&follows(&state));
    (plain.is_some(), plain.is_some_and(|state| state.accepted()))
}

#[test]
fn power_on_is_the_librarys() {
    for resolution in [300, 203] {
        let settings = ierbulosc::Settings {
            resolution,
            auto_feed: 1,
            width: 7_559,
        };
        let (_, state) = start(resolution, true, 7_559);
        let (_, proved) = Registers::start(&settings);
        assert_eq!(registers(&state), Some(proved));
        assert_eq!(plain(&proved), Some(state));
    }
}

#[test]
fn there_and_back() {
    let mut random = Random::new(1);
    let mut told = 0;
    for _ in 0..20_000 {
        let state = arbitrary::arbitrary(&mut random);
        let Some(plain) = plain(&state) else {
            continue;
        };
        told += 1;
        let back = registers(&plain).unwrap();
        assert_eq!(without_old_places(&back), without_old_places(&state));
    }
    assert!(told > 12_000, "{told}");
}

#[test]
fn both_forms_have_the_same_unseen_parts() {
    let mut random = Random::new(2);
    for _ in 0..20_000 {
        let state = arbitrary::arbitrary(&mut random);
        let Some(told) = plain(&state) else {
            continue;
        };
        let normal_told = plain(&normal(&state)).unwrap();
        assert_eq!(states::normal(&told), states::normal(&normal_told));
        assert_eq!(told.accepted(), normal_told.accepted());
    }
}

#[test]
fn numbers_that_stand_for_no_plain_state() {
    let names = names();
    let flags = |name: &&String| with(name, 2) == (false, false);
    let flags: Vec<&String> = names.iter().filter(flags).collect();
    let waiting = [
        "kind",
        "command",
        "argument",
        "image_mode",
        "image_byte",
        "image_columns",
    ];
    let derived = [
        "dots_down",
        "style",
        "advance",
        "column_width",
        "advance_dots",
    ];
    assert_eq!(flags.len(), 16 + 6, "{flags:?}");
    for name in flags
        .iter()
        .filter(|name| !waiting.contains(&name.as_str()))
    {
        assert_eq!(with(name, 0), (true, true));
        assert_eq!(with(name, 1), (true, true));
        for number in [255, 256, 257, 1 << 16, 1 << 31, u32::MAX] {
            assert_eq!(with(name, number), (false, false), "{name} {number}");
        }
    }
    for name in ["pitch", "spacing", "font", "country", "outline", "chosen"] {
        assert_eq!(with(name, 256 + 10), (false, false), "{name}");
    }
    for (name, number) in [
        ("dots_across", 204),
        ("paper_width", 28_799),
        ("paper_width", 28_801),
        ("pitch", 11),
        ("columns.stops[8]", 256),
        ("chosen", 8),
        ("channels.counts[0]", 2),
        ("channels.counts[7]", 18),
    ] {
        assert_eq!(with(name, number), (true, false), "{name}");
    }
    for count in [33, 256, 65_536, u32::MAX] {
        assert_eq!(with("columns.count", count), (true, false));
        assert_eq!(with("channels.counts[5]", count), (true, false));
        assert_eq!(with("gathered.count", count), (true, true));
    }
    for name in derived {
        let mut state = power_on();
        set(&mut state, name, 77).unwrap();
        assert_eq!(plain(&state), None, "{name}");
    }
}

/// What follows from settings, by document 01.
#[test]
fn registers_that_follow() {
    let following = |numbers: &[(&str, u32)]| {
        let mut state = power_on();
        for (name, number) in numbers {
            set(&mut state, name, *number).unwrap();
        }
        let state = follows(&state);
        (state.style, state.advance, state.column_width)
    };
    assert_eq!(following(&[]), (0, 360, 360));
    assert_eq!(following(&[("pitch", 12), ("bold", 1)]), (1, 300, 300));
    let wide = [("pitch", 15), ("wide_once", 1), ("spacing", 127)];
    assert_eq!(following(&wide), (1 << 6, 5_560, 5_560));
    let reduced = [("reduced", 1), ("italic_table", 1)];
    assert_eq!(following(&reduced), (1 << 11 | 1 << 12, 216, 216));
    let proportional = [("proportional", 1), ("reduced", 1), ("outline", 3)];
    assert_eq!(following(&proportional), (0xF00, 180, 360));
    let all = [("superscript", 1), ("download", 1), ("double_height", 1)];
    assert_eq!(following(&all).0, 1 << 4 | 1 << 13 | 1 << 7);
    let mut state = power_on();
    assert_eq!(follows(&state).advance_dots, 30);
    state.dots_across = 203;
    assert_eq!(follows(&state).dots_down, 200);
    // 360 x 203 is 20 x 3,600 and 1,080
    assert_eq!(follows(&state).advance_dots, 1_080 * 65_536 + 20);
}

/// Whether something waited for is accepted: kind, command and argument, and of
/// an image mode, byte and columns.
fn waits(kind: u32, command: u32, argument: u32, image: [u32; 3]) -> bool {
    let [image_mode, image_byte, image_columns] = image;
    let state = Registers {
        kind,
        command,
        argument,
        image_mode,
        image_byte,
        image_columns,
        ..power_on()
    };
    plain(&state).is_some_and(|state| state.accepted())
}

const NO_IMAGE: [u32; 3] = [0; 3];
/// Numbers of an image of which one is not 0.
const IMAGES: [[u32; 3]; 3] = [[1, 0, 0], [0, 1, 0], [0, 0, 1]];

#[test]
fn kinds_of_waiting() {
    let commands = |kind, argument, image| {
        let all = (0..=600).filter(|&command| waits(kind, command, argument, image));
        let bytes = all.map(|command| u8::try_from(command).unwrap());
        bytes.collect::<Vec<u8>>()
    };
    for kind in [0, 1] {
        assert_eq!(commands(kind, 0, NO_IMAGE), [0]);
    }
    assert_eq!(
        commands(2, 0, NO_IMAGE),
        b" !$%*+-/3ACJKLNQRSWYZ\\biklpqtwx"
    );
    assert_eq!(commands(3, 0, NO_IMAGE), b"$*CKLYZ\\");
    assert_eq!(commands(3, 7, NO_IMAGE), b"$KLYZ\\");
    assert_eq!(commands(3, 39, NO_IMAGE), b"$*KLYZ\\");
    assert_eq!(commands(3, b'a'.into(), NO_IMAGE), b"$KLYZ\\i");
    assert_eq!(commands(4, 7, NO_IMAGE), b"BD");
    assert_eq!(commands(4, 7, [7, 0, 0]), b"B");
    assert_eq!(commands(7, 0, NO_IMAGE), [0]);
    assert_eq!(commands(7, 255, NO_IMAGE), [0]);
    assert_eq!(commands(5, 0, [0, 1, 65_535]), [0]);
    assert_eq!(commands(5, 0, [40, 3, 1]), [0]);
    assert_eq!(commands(6, 7, [0, 0, 0]), b"*");
    assert_eq!(commands(6, 0, [39, 0, 0]), b"*");
    for kind in (0..=255).chain([256, 257, 258, u32::MAX]) {
        let argued = matches!(kind, 3 | 4 | 6 | 7);
        let unused = !argued && !commands(kind, 1, NO_IMAGE).is_empty();
        assert!(!unused, "kind {kind} with an argument");
        for image in IMAGES {
            let modes = matches!(kind, 4 | 6) && image == [1, 0, 0];
            let unused = !modes && !commands(kind, 0, image).is_empty();
            assert!(!unused, "kind {kind} with {image:?}");
        }
        assert!(commands(kind, 256, NO_IMAGE).is_empty());
        assert!(commands(kind, 0, [0, 0, 65_536]).is_empty());
        assert!(commands(kind, 0, [0, 1, 65_536]).is_empty());
    }
    assert!(commands(5, 0, NO_IMAGE).is_empty() && commands(5, 1, [0, 1, 1]).is_empty());
    assert!(commands(8, 0, NO_IMAGE).is_empty());
}

const ONE_BYTE: [u32; 6] = [0, 1, 2, 3, 4, 6];
const THREE_BYTES: [u32; 5] = [32, 33, 38, 39, 40];

/// ESC * is waited for with nothing, with a listed mode, or with one and any
/// byte, and not otherwise.
#[test]
fn the_places_of_esc_star() {
    let star = b'*'.into();
    let listed: Vec<u32> = ONE_BYTE.into_iter().chain(THREE_BYTES).collect();
    for kind in 0..=300 {
        let arguments = (0..=600).filter(|&argument| waits(kind, star, argument, NO_IMAGE));
        let arguments: Vec<u32> = arguments.collect();
        match kind {
            2 => assert_eq!(arguments, [0]),
            3 => assert_eq!(arguments, listed),
            6 => assert!(arguments.into_iter().eq(0..=255)),
            _ => assert!(arguments.is_empty(), "kind {kind}"),
        }
        let modes = (0..=600).filter(|&mode| waits(kind, star, 7, [mode, 0, 0]));
        match kind {
            6 => assert_eq!(modes.collect::<Vec<_>>(), listed),
            _ => assert_eq!(modes.count(), 0, "kind {kind}"),
        }
        assert!(!waits(kind, star, 39, [39, 1, 0]) && !waits(kind, star, 39, [39, 0, 1]));
    }
}

/// Image data is waited for in a listed mode, with one of the bytes of its
/// columns.
#[test]
fn the_places_of_image_data() {
    for mode in 0..=600 {
        let bytes: Vec<u32> = (0..=300)
            .filter(|&byte| waits(5, 0, 0, [mode, byte, 65_535]))
            .collect();
        match mode {
            _ if ONE_BYTE.contains(&mode) => assert_eq!(bytes, [1]),
            _ if THREE_BYTES.contains(&mode) => assert_eq!(bytes, [1, 2, 3]),
            _ => assert!(bytes.is_empty(), "mode {mode}"),
        }
        for byte in bytes {
            assert!(waits(5, 0, 0, [mode, byte, 1]));
            assert!(!waits(5, 0, 0, [mode, byte, 0]) && !waits(5, 0, 0, [mode, byte, 65_536]));
            assert!(!waits(5, 0, 1, [mode, byte, 1]));
            assert!((1..=600).all(|command| !waits(5, command, 0, [mode, byte, 1])));
        }
    }
}

/// What stands in the registers after each byte of an image.
#[test]
fn the_registers_of_an_image() {
    let after = |input: &[u8]| {
        let (_, mut state) = start(300, false, 28_800);
        read(&mut state, input, usize::MAX, &mut [0; 20 * ROOM]);
        let state = registers(&state).unwrap();
        let numbers = state.registers();
        assert_eq!(numbers[3], state.image_mode);
        numbers[..6].to_vec()
    };
    let star = b'*'.into();
    assert_eq!(after(b"\x1B*"), [2, star, 0, 0, 0, 0]);
    assert_eq!(after(b"\x1B*\x27"), [3, star, 39, 0, 0, 0]);
    assert_eq!(after(b"\x1B*\x27\x02"), [6, star, 2, 39, 0, 0]);
    assert_eq!(after(b"\x1B*\x27\x02\x01"), [5, 0, 0, 39, 1, 258]);
    assert_eq!(after(b"\x1B*\x27\x02\x00A"), [5, 0, 0, 39, 2, 2]);
    assert_eq!(after(b"\x1B*\x27\x02\x00AB"), [5, 0, 0, 39, 3, 2]);
    assert_eq!(after(b"\x1B*\x27\x02\x00ABC"), [5, 0, 0, 39, 1, 1]);
    assert_eq!(after(b"\x1B*\x27\x02\x00ABCDEF"), [0; 6]);
    assert_eq!(after(b"\x1B*\x27\x00\x00"), [0; 6]);
    assert_eq!(after(b"\x1B*\x05"), [0; 6]);
    for (mode, command) in (0..).zip(*b"KLYZ") {
        let command = u32::from(command);
        let escape = [0x1B, command as u8, 2, 0, 9];
        assert_eq!(after(&escape[..3]), [3, command, 2, 0, 0, 0]);
        assert_eq!(after(&escape[..4]), [5, 0, 0, mode, 1, 2]);
        assert_eq!(after(&escape), [5, 0, 0, mode, 1, 1]);
    }
}

/// A vertical list is waited for with one of the channels and any byte before,
/// and a dropped one with any byte before and nothing else.
#[test]
fn the_places_of_lists() {
    for number in (0..=300).chain([0x107, 1 << 16, u32::MAX]) {
        for last in [0, 1, 255] {
            let vertical = waits(4, b'B'.into(), last, [number, 0, 0]);
            assert_eq!(vertical, number <= 7, "channel {number}");
            let horizontal = waits(4, b'D'.into(), last, [number, 0, 0]);
            assert_eq!(horizontal, number == 0, "{number}");
            assert!(!waits(4, b'b'.into(), last, [number, 0, 0]));
            assert_eq!(waits(7, 0, last, [number, 0, 0]), number == 0);
            assert_eq!(waits(7, number, last, NO_IMAGE), number == 0);
        }
        assert_eq!(waits(7, 0, number, NO_IMAGE), number <= 255);
        assert_eq!(waits(4, b'B'.into(), number, [7, 0, 0]), number <= 255);
    }
    assert!(!waits(4, b'B'.into(), 1, [7, 1, 0]) && !waits(4, b'B'.into(), 1, [7, 0, 1]));
}

/// What stands in the registers after ESC /, ESC b and ESC B.
#[test]
fn the_registers_of_channels() {
    let after = |input: &[u8]| {
        let (_, mut state) = start(300, false, 28_800);
        read(&mut state, input, usize::MAX, &mut [0; 40 * ROOM]);
        registers(&state).unwrap()
    };
    let waiting = |input| after(input).registers()[..6].to_vec();
    assert_eq!(waiting(b"\x1B/"), [2, 0x2F, 0, 0, 0, 0]);
    assert_eq!(waiting(b"\x1Bb"), [2, 0x62, 0, 0, 0, 0]);
    assert_eq!(waiting(b"\x1Bb\x05"), [4, 0x42, 0, 5, 0, 0]);
    assert_eq!(waiting(b"\x1Bb\x05\x09"), [4, 0x42, 9, 5, 0, 0]);
    assert_eq!(waiting(b"\x1B/\x03\x1BB\x09"), [4, 0x42, 9, 0, 0, 0]);
    assert_eq!(waiting(b"\x1Bb\x08"), [7, 0, 0, 0, 0, 0]);
    assert_eq!(waiting(b"\x1Bb\x08\x09"), [7, 0, 9, 0, 0, 0]);
    assert_eq!(waiting(b"\x1Bb\x08\x09\x09"), [0; 6]);
    assert_eq!(after(b"\x1B/\x07").chosen, 7);
    for channel in 0..8 {
        let state = after(&[0x1B, b'b', channel, 2, 5, 0]);
        let mut expected = power_on();
        let channel = usize::from(channel);
        expected.channels.counts[channel] = 3;
        expected.channels.stops[16 * channel] = 1_200;
        expected.channels.stops[16 * channel + 1] = 3_000;
        assert_eq!(state, expected);
        let state = after(&[0x1B, b'b', channel as u8, 0]);
        let mut expected = power_on();
        expected.channels.counts[channel] = 1;
        assert_eq!(state, expected);
    }
}

/// ESC i is waited for with nothing, or with "a", and not otherwise.
#[test]
fn the_places_of_esc_i() {
    let mut such = Vec::new();
    for kind in 0..=300 {
        for argument in 0..=600 {
            if waits(kind, b'i'.into(), argument, NO_IMAGE) {
                such.push((kind, argument));
            }
            assert!(IMAGES
                .iter()
                .all(|&image| !waits(kind, b'i'.into(), argument, image)));
        }
    }
    assert_eq!(such, [(2, 0), (3, b'a'.into())]);
    let plain = |input: &[u8]| {
        let (_, mut state) = start(300, false, 28_800);
        read(&mut state, input, usize::MAX, &mut [0; 4 * ROOM]);
        let state = registers(&state).unwrap();
        (state.kind, state.command, state.argument)
    };
    assert_eq!(plain(b"\x1Bi"), (2, b'i'.into(), 0));
    assert_eq!(plain(b"\x1Bia"), (3, b'i'.into(), b'a'.into()));
    for done in [&b"\x1Bia\x00"[..], b"\x1BiS", b"\x1Bis", b"\x1Bia\x01"] {
        assert_eq!(plain(done), (0, 0, 0));
    }
}

#[test]
fn every_register_has_a_name_of_its_own() {
    let mut names = names();
    assert_eq!(names.len(), REGISTERS);
    for (at, name) in names.iter().enumerate() {
        let mut changed = power_on();
        set(&mut changed, name, 77).unwrap();
        let found = differing(&changed, &power_on());
        assert_eq!(found.len(), 1);
        assert_eq!(found[0].0.to_string(), *name);
        assert_ne!(changed.registers()[at], power_on().registers()[at]);
    }
    names.sort();
    names.dedup();
    assert_eq!(names.len(), REGISTERS);
    assert_eq!(set(&mut power_on(), "width", 1), None);
}
