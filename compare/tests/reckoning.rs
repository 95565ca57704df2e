//! The reckoning agrees with the plain reader on generated lists of calls.

use compare::calls::{calls, run, Call};
use compare::random::Random;
use compare::reckoning::{expected, Printed};
use compare::record::{set, Record, COLUMN, RECORD_SIZE, REST, ROOM};
use compare::shrink::shrink;
use ierbulosc::Settings;

const LISTS: u64 = 5_000;

/// The TX and IM records of all calls, joined.
fn placed(calls: &[Call]) -> (Vec<Record>, Vec<usize>) {
    let outcomes = run(calls);
    let reads = outcomes.iter().map(|outcome| outcome.read).collect();
    let mut records = Vec::new();
    for outcome in &outcomes {
        assert_ne!(outcome.answer, 4);
        let written = outcome.out[..outcome.written].chunks_exact(RECORD_SIZE);
        let placed = written.filter(|record| matches!(&record[..2], b"TX" | b"IM"));
        records.extend(placed.map(|record| Record::try_from(record).unwrap()));
    }
    (records, reads)
}

/// Whether the reckoning and the plain reader differ on this list.
fn differs(calls: &[Call]) -> bool {
    let (records, reads) = placed(calls);
    let due = expected(calls, &reads);
    let mut pairs = due.iter().zip(&records);
    due.len() != records.len() || pairs.any(|(due, came)| !due.is(came))
}

#[test]
fn agrees_on_generated_calls() {
    let mut printed = 0;
    for seed in 0..LISTS {
        let list = calls(&mut Random::new(seed));
        if differs(&list) {
            let short = shrink(&list, &differs, 3_000);
            panic!("seed {seed}: {short:02X?}");
        }
        printed += placed(&list).0.len();
    }
    assert!(printed > 100_000, "only {printed} letters and image bytes");
}

/// The comparison's own sizes are those of the library's cover and of the
/// plain reader.
#[test]
fn sizes_are_everyones() {
    assert_eq!(RECORD_SIZE, ierbulosc::RECORD_SIZE);
    assert_eq!(ROOM, ierbulosc::ROOM);
    assert_eq!(ROOM, plain_reader::ROOM_FOR_A_BYTE);
}

/// Dot column and rest together are the exact place: 20 units at 203 dots are
/// 4,060 parts, dot 1 and 460. With other dots or rests they are another place,
/// none, or said by a dot that is not the nearest.
#[test]
fn a_record_gives_its_place_back() {
    let list = [
        Call::Start(Settings {
            resolution: 203,
            ..Settings::default()
        }),
        Call::Read {
            input: b"\x1B\\\x01\x00A".to_vec(),
            allowance: 100,
            room: 1_000,
        },
    ];
    let due = expected(&list, &[0, 5])[0];
    let gives_back = |column: u16, rest: i16| {
        let mut record = due.record;
        set(&mut record, COLUMN, column);
        set(&mut record, REST, rest as u16);
        Printed { record, ..due }.is(&record)
    };
    assert!(gives_back(1, 460) && due.is(&due.record));
    for (column, rest) in [
        (1, -460),
        (1, 459),
        (1, 663),
        (1, 257),
        (0, 4_060),
        (2, -3_140),
    ] {
        assert!(!gives_back(column, rest), "{column} {rest}");
    }
}

#[test]
fn a_refused_start_begins_anew() {
    let reading = |input: &[u8]| Call::Read {
        input: input.to_vec(),
        allowance: 100,
        room: 1_000,
    };
    let start = |resolution| {
        Call::Start(Settings {
            resolution,
            auto_feed: 1,
            ..Settings::default()
        })
    };
    let list = [start(203), reading(b"AB\x1B"), start(204), reading(b"CD")];
    let (records, reads) = placed(&list);
    let due = expected(&list, &reads);
    let columns: Vec<u8> = records.iter().map(|record| record[2]).collect();
    assert_eq!(columns, [0, 20, 0, 30]);
    assert!(due.iter().map(|printed| &printed.record).eq(&records));
    assert_eq!(due[1].across, 360);
}

/// The width of a start is the right margin, after ESC @ too, until the next.
#[test]
fn the_width_is_kept_until_the_next_start() {
    let start = |width| {
        Call::Start(Settings {
            width,
            ..Settings::default()
        })
    };
    let reading = || Call::Read {
        input: [b"\x1BQ\x05\x1B@", &[b'A'; 22][..]].concat(),
        allowance: 100,
        room: 1_000,
    };
    let list = [
        start(7_200),
        reading(),
        start(7_199),
        reading(),
        start(7_560),
        reading(),
    ];
    let (records, reads) = placed(&list);
    let due = expected(&list, &reads);
    assert!(due.iter().map(|printed| &printed.record).eq(&records));
    let lines = due.iter().map(|printed| printed.down / 600);
    let first_line: Vec<usize> = lines
        .collect::<Vec<_>>()
        .chunks(22)
        .map(|lines| lines.iter().filter(|&&line| line == 0).count())
        .collect();
    assert_eq!(first_line, [20, 22, 21]);
}

/// Done or passed over, ESC i is used up to its end and leaves the place.
#[test]
fn esc_i_moves_nothing() {
    let input = b"A\x1Bia\x00B\x1BiSC\x1BisD\x1Bia\x30E\x1Bi\x0AF\x0E\x1BiSG\x1Bia";
    let list = [
        Call::Start(Settings::default()),
        Call::Read {
            input: input.to_vec(),
            allowance: 100,
            room: 1_000,
        },
    ];
    let (records, reads) = placed(&list);
    let due = expected(&list, &reads);
    assert!(due.iter().map(|printed| &printed.record).eq(&records));
    let places: Vec<(u8, i64)> = due.iter().map(|p| (p.record[6], p.across)).collect();
    let letters = b"ABCDEFG".iter().enumerate();
    let expected: Vec<(u8, i64)> = letters.map(|(at, &b)| (b, 360 * at as i64)).collect();
    assert_eq!(places, expected);
    assert!(due.iter().all(|printed| printed.down == 0));
}

/// The bytes of a column stand at one place, which moves after the last of
/// them, and not where the column does not fit.
#[test]
fn columns_move_after_their_last_byte() {
    let reading = |input: &[u8]| Call::Read {
        input: input.to_vec(),
        allowance: 100,
        room: 1_000,
    };
    let list = [
        Call::Start(Settings::default()),
        reading(b"\x1BQ\x01\x1B\\\x0E\x00\x1B*\x20\x02\x001"),
        reading(b"23456"),
        reading(b"\x1B*\x27\x02\x00abcde"),
        reading(b"f\x1B*\x04\x01\x00g\x1B*\x28\x00\x00\x1B*\x05\x1BL\x02\x00hiA"),
    ];
    let (records, reads) = placed(&list);
    let due = expected(&list, &reads);
    assert!(due.iter().map(|printed| &printed.record).eq(&records));
    let shown = due
        .iter()
        .map(|p| (p.record[6], p.record[7], p.across, p.record[12]));
    let expected = [
        (b'1', 1, 280, 60),
        (b'2', 2, 280, 60),
        (b'3', 3, 280, 60),
        (b'a', 1, 340, 20),
        (b'b', 2, 340, 20),
        (b'c', 3, 340, 20),
    ];
    assert_eq!(shown.clone().take(6).collect::<Vec<_>>(), expected);
    let letter = (b'A', 0, 0, (360 % 256) as u8);
    assert_eq!(shown.skip(6).collect::<Vec<_>>(), [letter]);
    assert_eq!(due[6].down, 600);
}

/// VT goes by the stops of the chosen channel; ESC B sets channel 0, ESC b its
/// own, and a list of no channel none.
#[test]
fn channels_are_reckoned_each_by_itself() {
    let reading = |input: &[u8]| Call::Read {
        input: input.to_vec(),
        allowance: 100,
        room: 2_000,
    };
    let list = [
        Call::Start(Settings::default()),
        reading(b"\x1Bb\x05\x02\x00\x0BA\x1B/\x05\x0BB\x1BB\x03"),
        reading(b"\x00\x0BC\x1B/\x00\x0BD\x1Bb\x08\x04\x05"),
        reading(b"\x05\x0BE\x1B/\x08\x1B/0\x0BF\x1Bb\x02\x00\x1B/\x02 \x0BG"),
        reading(b"\x1B@\x0BH\x1B/\x05\x0BI"),
    ];
    let (records, reads) = placed(&list);
    let due = expected(&list, &reads);
    assert!(due.iter().map(|printed| &printed.record).eq(&records));
    let letters = due.iter().filter(|printed| printed.record[6] != b' ');
    let places: Vec<(u8, i64, i64)> = letters
        .map(|printed| (printed.record[6], printed.across, printed.down))
        .collect();
    let expected = [
        (b'A', 0, 600),
        (b'B', 0, 1_200),
        (b'C', 0, 0),
        (b'D', 0, 1_800),
        (b'E', 0, 0),
        (b'F', 0, 1_800),
        (b'G', 0, 1_800),
        (b'H', 0, 600),
        (b'I', 0, 1_200),
    ];
    assert_eq!(places, expected);
}
