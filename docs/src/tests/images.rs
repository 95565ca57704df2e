//! ESC *, and the one rule of a column in all modes.

use super::*;
use crate::Waiting;

/// A listed mode: its number, the bytes and units of a column, and the dots
/// across of three columns from the left, at 300.
type Listed = (u8, usize, u16, [u16; 3]);

const MODES: [Listed; 11] = [
    (0, 1, 60, [0, 5, 10]),
    (1, 1, 30, [0, 3, 5]),
    (2, 1, 30, [0, 3, 5]),
    (3, 1, 15, [0, 1, 3]),
    (4, 1, 45, [0, 4, 8]),
    (6, 1, 40, [0, 3, 7]),
    (32, 3, 60, [0, 5, 10]),
    (33, 3, 30, [0, 3, 5]),
    (38, 3, 40, [0, 3, 7]),
    (39, 3, 20, [0, 2, 3]),
    (40, 3, 10, [0, 1, 2]),
];

/// ESC * with this mode and so many columns.
fn opened(mode: u8, columns: u16) -> Vec<u8> {
    let [low, high] = columns.to_le_bytes();
    vec![0x1B, b'*', mode, low, high]
}

/// ESC * with this mode, so many columns and these bytes.
fn drawn(mode: u8, columns: u16, bytes: &[u8]) -> Vec<u8> {
    [&opened(mode, columns), bytes].concat()
}

/// An IM that is the first, second or third byte of its column.
fn part(nth: u8, byte: u8, column: u16, units: u16) -> Seen {
    Seen {
        font: nth,
        ..im(byte, column, 0, units)
    }
}

/// Which byte of its column an image byte is, as its record says.
fn font(bytes: usize, at: usize) -> u8 {
    match bytes {
        1 => 0,
        _ => (at % bytes) as u8 + 1,
    }
}

#[test]
fn three_columns_of_every_mode() {
    for (mode, bytes, units, dots) in MODES {
        let data: Vec<u8> = (0..3 * bytes as u8).map(|byte| 0xF0 ^ byte).collect();
        let records = at_300(&drawn(mode, 3, &[&data[..], b"A"].concat()));
        let (letter, images) = records.split_last().unwrap();
        let due = data.iter().enumerate();
        let due = due.map(|(at, &byte)| {
            let image = part(font(bytes, at), byte, dots[at / bytes], units);
            exactly((at / bytes) as u32 * u32::from(units), image)
        });
        assert_eq!(images, due.collect::<Vec<_>>(), "mode {mode}");
        let place = 3 * u32::from(units);
        let after = (place * 300 + 1_800) / 3_600;
        let due = exactly(place, tx(b'A', after as u16, 0, 360));
        assert_eq!(*letter, due, "mode {mode}");
    }
}

#[test]
fn a_column_of_three_bytes_byte_for_byte() {
    let (_, mut state) = start(300, false);
    let mut out = [0xEE; 6 * ROOM_FOR_A_BYTE];
    let input = drawn(39, 2, &[0x80, 0x00, 0x01, 0xFF]);
    let report = read(&mut state, &input, 99, &mut out);
    let written = out[..report.written].chunks(RECORD_SIZE);
    let lines = written.map(|record| record.iter().map(|byte| format!("{byte:02x}")).collect());
    assert_eq!(
        lines.collect::<Vec<String>>(),
        [
            "494d0000000080010000000014000000",
            "494d0000000000020000000014000000",
            "494d0000000001030000000014000000",
            "494d02000000ff0100000000140050fb",
        ]
    );
    assert_eq!(state.across, 20);
}

#[test]
fn at_203_dots() {
    let mut state = start(203, false).1;
    let records = read_all(&mut state, &drawn(39, 3, &[7; 9]));
    let dots: Vec<u16> = records.iter().map(|record| record.column).collect();
    assert_eq!(dots, [0, 0, 0, 1, 1, 1, 2, 2, 2]);
    let mut state = start(203, false).1;
    let records = read_all(&mut state, &drawn(4, 3, &[7; 3]));
    let dots: Vec<u16> = records.iter().map(|record| record.column).collect();
    assert_eq!(dots, [0, 3, 5]);
}

/// ESC K, L, Y and Z are modes 0 to 3, in their records and in the state.
#[test]
fn the_four_older_commands_are_modes() {
    for (mode, &command) in b"KLYZ".iter().enumerate() {
        for data in [&b""[..], b"\x07", b"\x07\x08\x09AB"] {
            let mut states = [start(300, false).1, start(300, false).1];
            let older = [&[0x1B, command, 3, 0], data].concat();
            let records = read_all(&mut states[0], &older);
            assert_eq!(
                records,
                read_all(&mut states[1], &drawn(mode as u8, 3, data))
            );
            assert_eq!(states[0], states[1]);
            assert!(records.iter().all(|record| record.font == 0));
        }
    }
    assert_eq!(at_300(b"\x1B*\x00\x01\x00\x07"), [im(7, 0, 0, 60)]);
    assert_eq!(at_300(b"\x1BK\x01\x00\x07"), [im(7, 0, 0, 60)]);
}

#[test]
fn other_modes_are_passed_over_at_once() {
    let listed = MODES.map(|(mode, ..)| mode);
    for mode in (0..=255).filter(|mode| !listed.contains(mode)) {
        let (_, mut state) = start(300, false);
        read_all(&mut state, b"AB\x0E\x1BE");
        let before = state.clone();
        assert_eq!(read_all(&mut state, &[0x1B, b'*', mode]), [no(b'*', 2)]);
        assert_eq!(state, before, "mode {mode}");
    }
    let letter = tx(b'A', 0, 0, 360);
    assert_eq!(at_300(b"\x1B*\x05A"), [no(b'*', 2), letter]);
    // 71 to 73 are not listed here, nor is "0"
    for mode in [71, 72, 73, b'0'] {
        assert_eq!(at_300(&[0x1B, b'*', mode, b'A']), [no(b'*', 2), letter]);
    }
    assert_eq!(at_300(b"\x1B*\x1B@"), [no(b'*', 2), tx(b'@', 0, 0, 360)]);
    assert_eq!(at_300(b"\x1B?A"), [no(b'?', 1), letter]);
}

#[test]
fn what_is_waited_for_after_each_byte() {
    let (_, mut state) = start(300, false);
    let mut after = |byte: u8| {
        let records = read_all(&mut state, &[byte]);
        (state.waiting, state.across, records)
    };
    let image = |nth, columns| Waiting::Image {
        mode: 39,
        nth,
        columns,
    };
    assert_eq!(after(0x1B), (Waiting::SecondByte, 0, vec![]));
    assert_eq!(after(b'*'), (Waiting::ImageMode, 0, vec![]));
    assert_eq!(after(39), (Waiting::ColumnsLow { mode: 39 }, 0, vec![]));
    let high = Waiting::ColumnsHigh { mode: 39, low: 2 };
    assert_eq!(after(2), (high, 0, vec![]));
    assert_eq!(after(0), (image(1, 2), 0, vec![]));
    assert_eq!(after(9), (image(2, 2), 0, vec![part(1, 9, 0, 20)]));
    assert_eq!(after(8), (image(3, 2), 0, vec![part(2, 8, 0, 20)]));
    assert_eq!(after(7), (image(1, 1), 20, vec![part(3, 7, 0, 20)]));
    let second = |nth, byte| vec![off(-1_200, part(nth, byte, 2, 20))];
    assert_eq!(after(6), (image(2, 1), 20, second(1, 6)));
    assert_eq!(after(5), (image(3, 1), 20, second(2, 5)));
    assert_eq!(after(4), (Waiting::Nothing, 40, second(3, 4)));
}

#[test]
fn the_one_byte_modes_wait_for_the_first_byte() {
    for (mode, ..) in MODES.into_iter().filter(|mode| mode.1 == 1) {
        let (_, mut state) = start(300, false);
        read_all(&mut state, &drawn(mode, 3, b"\x01\x02"));
        let waiting = Waiting::Image {
            mode,
            nth: 1,
            columns: 1,
        };
        assert_eq!(state.waiting, waiting);
    }
}

/// 19 columns of 20 units between margins 360 apart: 18 stand, and each byte
/// of the last is passed over.
#[test]
fn the_last_of_nineteen_columns_does_not_fit() {
    let data: Vec<u8> = (1..=57).collect();
    let records = at_300(&[b"\x1BQ\x01", &drawn(39, 19, &data)[..], b"A"].concat());
    assert_eq!(records.len(), 1 + 57 + 2);
    assert_eq!(records[54], off(1_200, part(3, 54, 28, 20)));
    assert_eq!(records[55..58], [no(55, 4), no(56, 4), no(57, 4)]);
    assert_eq!(records[58..], [ln(50, 0), tx(b'A', 0, 50, 360)]);
}

/// The columns that fit between margins one letter apart, in every mode; the
/// others are passed over and counted down.
#[test]
fn margins_that_end_inside_a_run() {
    for (mode, bytes, units, _) in MODES {
        for left in [0, 1, 7] {
            let (_, mut state) = start(300, false);
            read_all(&mut state, &[0x1B, b'Q', left + 1, 0x1B, b'l', left]);
            let columns = 360 / units + 2;
            let data: Vec<u8> = (0..columns * bytes as u16).map(|n| n as u8).collect();
            let records = read_all(&mut state, &drawn(mode, columns, &data));
            let fit = usize::from(360 / units) * bytes;
            assert!(records[..fit].iter().all(|record| record.mark == *b"IM"));
            let over: Vec<Seen> = data[fit..].iter().map(|&byte| no(byte, 4)).collect();
            assert_eq!(records[fit..], over, "mode {mode}");
            assert_eq!(over.len(), 2 * bytes);
            let place = 360 * u32::from(left) + fit as u32 / bytes as u32 * u32::from(units);
            assert_eq!((state.across, state.waiting), (place, Waiting::Nothing));
        }
    }
}

/// Where 5 units are left, no column stands, of any mode, and the place stays.
#[test]
fn columns_that_do_not_fit_from_the_first_on() {
    for (mode, bytes, ..) in MODES {
        let (_, mut state) = start(300, false);
        state.across = 28_795;
        let data: Vec<u8> = (1..=3 * bytes as u8).collect();
        let records = read_all(&mut state, &drawn(mode, 3, &data));
        let over: Vec<Seen> = data.iter().map(|&byte| no(byte, 4)).collect();
        assert_eq!(records, over);
        assert_eq!((state.across, state.waiting), (28_795, Waiting::Nothing));
    }
}

#[test]
fn numbers_of_columns() {
    let letter = tx(b'A', 0, 0, 360);
    for (mode, bytes, units, _) in MODES {
        assert_eq!(at_300(&drawn(mode, 0, b"A")), [letter]);
        for columns in [1, 255, 256, 257] {
            let data = vec![0x1B; columns * bytes];
            let records = at_300(&drawn(mode, columns as u16, &[&data[..], b"A"].concat()));
            assert_eq!(records.len(), columns * bytes + 1);
            let place = columns as u32 * u32::from(units);
            let after = (place * 300 + 1_800) / 3_600;
            let due = exactly(place, tx(b'A', after as u16, 0, 360));
            assert_eq!(records.last(), Some(&due));
        }
    }
}

/// The most columns: 2,880 of 10 units fit on the widest paper.
#[test]
fn the_most_columns() {
    let data = vec![0x40; 3 * 65_535];
    let (_, mut state) = start(300, false);
    let records = read_all(&mut state, &drawn(40, 65_535, &data[1..]));
    assert_eq!(records.len(), data.len() - 1);
    let last = off(600, part(3, 0x40, 2_399, 10));
    assert_eq!(records[3 * 2_880 - 1], last);
    let over = &records[3 * 2_880..];
    assert!(over.iter().all(|record| *record == no(0x40, 4)));
    let last = Waiting::Image {
        mode: 40,
        nth: 3,
        columns: 1,
    };
    assert_eq!(state.waiting, last);
    let after = [no(0x40, 4), ln(50, 0), tx(b'A', 0, 50, 360)];
    assert_eq!(read_all(&mut state, b"\x40A"), after);
}

/// A column is cut anywhere by the end of the input, the allowance or the
/// room, and goes on.
#[test]
fn a_column_cut_anywhere() {
    for (mode, bytes, ..) in MODES {
        let data: Vec<u8> = (0..5 * bytes as u8).collect();
        let input = [
            &b"\x1BQ\x01\x1B\\\x0A\x00"[..],
            &drawn(mode, 5, &data),
            b"A",
        ]
        .concat();
        let (_, mut whole) = start(300, false);
        let records = read_all(&mut whole, &input);
        for cut in 0..=input.len() {
            let (_, mut state) = start(300, false);
            let mut parts = read_all(&mut state, &input[..cut]);
            parts.extend(read_all(&mut state, &input[cut..]));
            assert_eq!((&parts, &state), (&records, &whole));
        }
        for room in 2 * RECORD_SIZE..=7 * RECORD_SIZE {
            for allowance in [1, 2, 3, 4, 5, 99] {
                let (_, mut state) = start(300, false);
                let mut rest = &input[..];
                let mut parts = Vec::new();
                while !rest.is_empty() {
                    let mut out = vec![0; room];
                    let report = read(&mut state, rest, allowance, &mut out);
                    parts.extend(out[..report.written].chunks(RECORD_SIZE).map(apart));
                    rest = &rest[report.read..];
                }
                assert_eq!((&parts, &state), (&records, &whole));
            }
        }
    }
}

/// After ESC 7, 9Bh begins ESC *, and the bytes after it are taken as they
/// are.
#[test]
fn upper_codes_inside_it() {
    let image = [part(1, 0x9B, 0, 20), part(2, 0x1B, 0, 20)];
    let last = [part(3, 0x40, 0, 20), off(-1_200, tx(b'A', 2, 0, 360))];
    let image = [&image[..], &last].concat();
    let letter = tx(b'A', 0, 0, 360);
    for first in [0x1B, 0x9B] {
        let after = |rest: &[u8]| at_300(&[&[0x1B, b'7', first], rest].concat());
        assert_eq!(after(b"*\x27\x01\x00\x9B\x1B\x40A"), image);
        assert_eq!(after(b"*\xA7A"), [no(b'*', 2), letter]);
        assert_eq!(after(b"\xAAA"), [no(0xAA, 1), letter]);
    }
    let printed = [(0x9B, 0), (b'*', 30), (b'\'', 60)];
    let printed = printed.map(|(letter, column)| tx(letter, column, 0, 360));
    assert_eq!(at_300(b"\x9B*'"), printed);
}

/// Neither settings nor the style of letters show on a column's records.
#[test]
fn unnamed_fields_are_0() {
    let before = b"\x1BE\x1B4\x1Bk\x07\x1BR\x0D\x0E\x1B \x05";
    let records = at_300(&[&before[..], &drawn(33, 1, b"\x01\x02\x03")].concat());
    assert_eq!(records, [1, 2, 3].map(|n| part(n, n, 0, 30)));
}
