//! The library through the safe cover.

use ierbulosc::{
    place, records, Answer, Record, Settings, State, Stops, COLUMNS, FIRST_ARGUMENT, IMAGE_DATA,
    NEW_TOP, NOTHING, NOT_ALLOWED, NO_FIT, RECORD_SIZE, REGISTERS, ROOM, SECOND_ARGUMENT,
    STOP_LIST, THIRD_ARGUMENT, UNLISTED,
};

const FILL: u8 = 0xE5;

/// The power-on state of the plain settings.
fn power_on() -> State {
    State::start(&Settings::default()).1
}

#[test]
fn starts() {
    let start = |resolution, auto_feed| {
        State::start(&Settings {
            resolution,
            auto_feed,
            ..Settings::default()
        })
    };
    for auto_feed in [1, 2, 256, 1 << 31, u32::MAX] {
        let (answer, state) = start(203, auto_feed);
        assert_eq!(answer, Answer::Done);
        assert_eq!((state.dots_across, state.dots_down), (203, 200));
        assert_eq!(state.auto_feed, 1);
    }
    assert_eq!(start(300, 0), (Answer::Done, power_on()));
    for refused in [202, 204, 299, 301, 65_536 + 300] {
        assert_eq!(start(refused, 1), (Answer::SettingsRefused, power_on()));
    }
}

/// Document 02, E3: a width in its range is kept and is the right margin; all
/// others are refused.
#[test]
fn widths() {
    let start = |resolution, width| {
        State::start(&Settings {
            resolution,
            auto_feed: 1,
            width,
        })
    };
    for width in [7_200, 7_201, 7_559, 28_799, 28_800] {
        let (answer, mut state) = start(203, width);
        assert_eq!(answer, Answer::Done);
        assert_eq!((state.paper_width, state.right), (width, width));
        let before = state;
        let report = state.read(b"\x1BQ\x05\x1B@", 5, &mut [0; 3 * ROOM]);
        assert_eq!((report.answer, state), (Answer::Done, before));
    }
    for refused in [0, 1, 7_199, 28_801, 65_536 + 7_200, u32::MAX] {
        assert_eq!(start(203, refused), (Answer::SettingsRefused, power_on()));
    }
    assert_eq!(start(204, 7_200), (Answer::SettingsRefused, power_on()));
}

/// Document 01, 'Power-on', number by number.
#[test]
fn power_on_by_numbers() {
    let state = power_on();
    let mut expected = [0; REGISTERS];
    expected[9..17].copy_from_slice(&[28_800, 39_600, 0, 600, 300, 300, 0, 28_800]);
    expected[17] = 10;
    expected[36..41].copy_from_slice(&[1, 0, 360, 360, 30]);
    expected[42..52].copy_from_slice(&[9, 8, 16, 24, 32, 40, 48, 56, 64, 72]);
    assert_eq!(state.registers(), expected);
    assert_eq!(State::from_registers(expected), state);
    assert_eq!(state.columns.held(), [8, 16, 24, 32, 40, 48, 56, 64, 72]);
}

#[test]
fn records_byte_for_byte() {
    let mut state = power_on();
    let mut out = [FILL; 2 * ROOM];
    let report = state.read(b"\x41\x0A", usize::MAX, &mut out);
    let came = (report.answer, report.read, report.written);
    assert_eq!(came, (Answer::Done, 2, 2 * RECORD_SIZE));
    let (written, rest) = out.split_at(report.written);
    let hex: String = written.iter().map(|byte| format!("{byte:02x}")).collect();
    let expected = "545800000000410000000000680100004c4e0000320000000000000000000000";
    assert_eq!(hex, expected);
    assert!(rest.iter().all(|&byte| byte == FILL));
    assert_eq!((state.across, state.down), (0, 600));
}

#[test]
fn records_by_name() {
    let mut state = power_on();
    let mut out = [FILL; 30 * ROOM];
    let input = b"\x1BE\x1Bk\x07\x1BR\x0D\x0A\x0EB\x1Bl\x00\x1BK\x01\x00\x55\x1BA\x56\x01\x1B@";
    let report = state.read(input, usize::MAX, &mut out);
    assert_eq!((report.answer, report.read), (Answer::Done, input.len()));
    let came: Vec<Record> = records(&out[..report.written]).collect();
    let letter = Record::Tx {
        column: 0,
        row: 50,
        byte: b'B',
        font: 7,
        style: 0x41,
        country: 13,
        advance: 720,
        rest: 0,
    };
    let image = Record::Im {
        column: 0,
        row: 50,
        byte: 0x55,
        part: 0,
        advance: 60,
        rest: 0,
    };
    let passed_over = |byte, reason| Record::No { byte, reason };
    let expected = [
        Record::Ln { row: 50, pages: 0 },
        letter,
        Record::Cl,
        image,
        passed_over(b'A', NOT_ALLOWED),
        passed_over(1, UNLISTED),
        Record::Ln {
            row: 0,
            pages: NEW_TOP,
        },
    ];
    assert_eq!(came, expected);
}

#[test]
fn bytes_that_are_no_record_are_skipped() {
    let mut bytes = [0; 3 * RECORD_SIZE + 5];
    bytes[RECORD_SIZE..][..2].copy_from_slice(b"CL");
    bytes[3 * RECORD_SIZE..][..2].copy_from_slice(b"CL");
    let mut came = records(&bytes);
    assert_eq!((came.next(), came.next()), (Some(Record::Cl), None));
    assert_eq!(came.next(), None);
    assert_eq!(records(&[]).next(), None);
}

#[test]
fn answers_in_order() {
    let answer = |input: &[u8], allowance, room| {
        let mut state = power_on();
        let report = state.read(input, allowance, &mut vec![FILL; room]);
        (report.answer, report.read, report.written)
    };
    assert_eq!(answer(b"", 0, 0), (Answer::Done, 0, 0));
    assert_eq!(answer(b"A", 0, 0), (Answer::AllowanceUsed, 0, 0));
    assert_eq!(answer(b"A", 1, ROOM - 1), (Answer::OutputFull, 0, 0));
    assert_eq!(answer(b"A", 1, ROOM), (Answer::Done, 1, RECORD_SIZE));
    assert_eq!(
        answer(b"AB", 1, ROOM),
        (Answer::AllowanceUsed, 1, RECORD_SIZE)
    );
    assert_eq!(answer(b"AB", 2, ROOM), (Answer::OutputFull, 1, RECORD_SIZE));
}

/// Each register in turn with a number that no state has there.
#[test]
fn a_refused_state_stays() {
    let unseen = |at: usize| (52..108).contains(&at) || (116..REGISTERS).contains(&at);
    for at in (0..REGISTERS).filter(|&at| !unseen(at)) {
        let mut registers = power_on().registers();
        registers[at] += 1 << 31;
        let mut state = State::from_registers(registers);
        let mut out = [FILL; ROOM];
        let report = state.read(b"A", 1, &mut out);
        let came = (report.answer, report.read, report.written);
        assert_eq!(came, (Answer::StateRefused, 0, 0), "{at}");
        assert_eq!((state.registers(), out), (registers, [FILL; ROOM]));
    }
}

#[test]
fn stops_are_gathered_then_in_force() {
    let mut state = power_on();
    let mut read = |input: &[u8]| {
        let report = state.read(input, usize::MAX, &mut [FILL; 9 * ROOM]);
        assert_eq!((report.answer, report.read), (Answer::Done, input.len()));
        state
    };
    let state = read(b"\x1BD\x05\x0A");
    assert_eq!((state.kind, state.command), (STOP_LIST, b'D'.into()));
    assert_eq!(state.gathered.held(), [5, 10]);
    let state = read(b"\x00\x1BB\x02\x03");
    assert_eq!((state.kind, state.command), (STOP_LIST, b'B'.into()));
    assert_eq!(state.gathered.held(), [1_200, 1_800]);
    assert_eq!((state.channels.held(0), state.chosen), (None, 0));
    let state = read(b"\x00");
    assert_eq!(state.kind, NOTHING);
    assert_eq!(state.columns.held(), [5, 10]);
    assert_eq!(state.channels.held(0), Some(&[1_200, 1_800][..]));
    assert_eq!(state.gathered, Stops::NONE);
}

/// What is waited for: kind, command and argument; no image's data.
fn waiting(state: &State) -> (u32, u32, u32) {
    let image = (state.image_mode, state.image_byte, state.image_columns);
    assert_eq!(image, (0, 0, 0));
    (state.kind, state.command, state.argument)
}

/// ESC i has two places, and leaves all as it was where it is done.
#[test]
fn esc_i_is_waited_for_and_done() {
    let mut state = power_on();
    let mut read = |input: &[u8]| {
        let report = state.read(input, usize::MAX, &mut [FILL; 9 * ROOM]);
        assert_eq!((report.answer, report.read), (Answer::Done, input.len()));
        assert_eq!(report.written, 0);
        state
    };
    let i = b'i'.into();
    assert_eq!(waiting(&read(b"\x1Bi")), (FIRST_ARGUMENT, i, 0));
    let state = read(b"a");
    assert_eq!(waiting(&state), (SECOND_ARGUMENT, i, b'a'.into()));
    assert_eq!(read(b"\x00"), power_on());
    assert_eq!(read(b"\x1BiS"), power_on());
    for argument in (0..=256).filter(|&argument| argument != b'a'.into()) {
        let mut other = State { argument, ..state };
        let report = other.read(b"", 0, &mut []);
        assert_eq!(report.answer, Answer::StateRefused, "{argument}");
    }
}

#[test]
fn what_is_passed_over_of_esc_i() {
    let mut state = power_on();
    let mut out = [FILL; 9 * ROOM];
    let report = state.read(b"\x1Bia\x30\x1Bis", usize::MAX, &mut out);
    let came: Vec<Record> = records(&out[..report.written]).collect();
    let no = |byte, reason| Record::No { byte, reason };
    assert_eq!(came, [no(b'i', NOT_ALLOWED), no(b's', UNLISTED)]);
    assert_eq!(state, power_on());
}

/// The modes of images with the bytes of a column, of document 02, E4.
const MODES: [(u32, u32); 11] = [
    (0, 1),
    (1, 1),
    (2, 1),
    (3, 1),
    (4, 1),
    (6, 1),
    (32, 3),
    (33, 3),
    (38, 3),
    (39, 3),
    (40, 3),
];

/// The bytes of a column of the mode with this number, if it is one.
fn column_bytes(number: u32) -> Option<u32> {
    let mut found = MODES.iter().filter(|(mode, _)| *mode == number);
    found.next().map(|&(_, bytes)| bytes)
}

/// A state that waits for this: kind, command, argument, an image's mode, the
/// byte of its column and the columns left.
fn waits_for(numbers: [u32; 6]) -> State {
    let mut registers = power_on().registers();
    registers[..6].copy_from_slice(&numbers);
    State::from_registers(registers)
}

/// Whether a state is one of the reader's.
fn accepted(mut state: State) -> bool {
    state.read(b"", 0, &mut []).answer == Answer::Done
}

/// ESC * from byte to byte.
#[test]
fn an_image_is_waited_for() {
    let mut state = power_on();
    let mut read = |byte: u8| {
        let report = state.read(&[byte], 1, &mut [FILL; ROOM]);
        assert_eq!((report.answer, report.read), (Answer::Done, 1));
        let across = state.across;
        let mut back = waits_for(state.registers()[..6].try_into().unwrap());
        back.across = across;
        assert_eq!(state, back);
        let image = (state.image_mode, state.image_byte, state.image_columns);
        (across, state.kind, state.command, state.argument, image)
    };
    let star = b'*'.into();
    read(0x1B);
    assert_eq!(read(b'*'), (0, FIRST_ARGUMENT, star, 0, (0, 0, 0)));
    assert_eq!(read(39), (0, SECOND_ARGUMENT, star, 39, (0, 0, 0)));
    assert_eq!(read(2), (0, THIRD_ARGUMENT, star, 2, (39, 0, 0)));
    assert_eq!(read(1), (0, IMAGE_DATA, 0, 0, (39, 1, 258)));
    assert_eq!(read(0x1B), (0, IMAGE_DATA, 0, 0, (39, 2, 258)));
    assert_eq!(read(0x40), (0, IMAGE_DATA, 0, 0, (39, 3, 258)));
    assert_eq!(read(0xFF), (20, IMAGE_DATA, 0, 0, (39, 1, 257)));
}

/// ESC K, L, Y and Z are modes 0, 1, 2 and 3, and leave the very state.
#[test]
fn other_escapes_of_images_are_modes() {
    for (mode, code) in (0..).zip(*b"KLYZ") {
        let after = |input: &[u8]| {
            let mut state = power_on();
            let mut out = [FILL; 9 * ROOM];
            let report = state.read(input, usize::MAX, &mut out);
            assert_eq!((report.answer, report.read), (Answer::Done, input.len()));
            (state, out)
        };
        let begun = after(&[0x1B, code, 2, 0, 7]);
        assert_eq!(begun, after(&[0x1B, b'*', mode, 2, 0, 7]));
        let numbers = [IMAGE_DATA, 0, 0, mode.into(), 1, 1];
        assert_eq!(begun.0.registers()[..6], numbers);
    }
}

/// Image data waited for: a listed mode, a byte of its column, 1 to 65,535
/// columns.
#[test]
fn image_data_in_a_state() {
    for mode in (0..=257).chain([1 << 16, u32::MAX]) {
        for byte in 0..=4 {
            for columns in [0, 1, 2, 65_535, 65_536, 65_537, u32::MAX] {
                let bytes = column_bytes(mode);
                let ours = bytes.is_some_and(|bytes| (1..=bytes).contains(&byte))
                    && (1..=65_535).contains(&columns);
                let state = waits_for([IMAGE_DATA, 0, 0, mode, byte, columns]);
                assert_eq!(accepted(state), ours, "{mode} {byte} {columns}");
            }
        }
    }
    for other in [b'*', b'K', b'L', b'Y', b'Z'] {
        assert!(!accepted(waits_for([IMAGE_DATA, other.into(), 0, 0, 1, 1])));
    }
    assert!(!accepted(waits_for([IMAGE_DATA, 0, 1, 0, 1, 1])));
}

/// Arguments of ESC * so far: none, a listed mode, a listed mode and any byte.
#[test]
fn arguments_of_an_image_in_a_state() {
    let star = u32::from(b'*');
    assert!(accepted(waits_for([FIRST_ARGUMENT, star, 0, 0, 0, 0])));
    for number in 0..=257 {
        let listed = column_bytes(number).is_some();
        let state = waits_for([SECOND_ARGUMENT, star, number, 0, 0, 0]);
        assert_eq!(accepted(state), listed, "{number}");
        for argument in [0, 1, 255, 256] {
            let state = waits_for([THIRD_ARGUMENT, star, argument, number, 0, 0]);
            let ours = listed && argument < 256;
            assert_eq!(accepted(state), ours, "{number} {argument}");
        }
    }
    for kind in [FIRST_ARGUMENT, SECOND_ARGUMENT, THIRD_ARGUMENT] {
        let numbers = [kind, star, 0, 0, 0, 0];
        assert!(accepted(waits_for(numbers)), "{kind}");
        for unused in [4, 5] {
            let mut other = numbers;
            other[unused] = 1;
            assert!(!accepted(waits_for(other)), "{kind} {unused}");
        }
    }
    for second in b"$KLYZCi" {
        let state = waits_for([THIRD_ARGUMENT, (*second).into(), 0, 0, 0, 0]);
        assert!(!accepted(state), "{second}");
    }
}

/// Two columns of three bytes, of which the margin has room for one; another
/// mode.
#[test]
fn image_bytes_by_name() {
    let mut state = power_on();
    let mut out = [FILL; 30 * ROOM];
    let input = b"\x1B$\xDF\x01\x1B*\x20\x02\x00\x80\x00\x01\x40\x1B\x02\x1B*\x48";
    let report = state.read(input, usize::MAX, &mut out);
    assert_eq!((report.answer, report.read), (Answer::Done, input.len()));
    let came: Vec<Record> = records(&out[..report.written]).collect();
    let placed = |byte, part| Record::Im {
        column: 2_395,
        row: 0,
        byte,
        part,
        advance: 60,
        rest: 0,
    };
    let no = |byte, reason| Record::No { byte, reason };
    let expected = [
        placed(0x80, 1),
        placed(0x00, 2),
        placed(0x01, 3),
        no(0x40, NO_FIT),
        no(0x1B, NO_FIT),
        no(0x02, NO_FIT),
        no(b'*', NOT_ALLOWED),
    ];
    assert_eq!(came, expected);
    assert_eq!((state.kind, state.across), (NOTHING, 28_800));
}

/// Dot column and rest of letters and image bytes give their exact places back,
/// at both resolutions: 360 units apart, and 20.
#[test]
fn column_and_rest_give_the_place() {
    for (resolution, rests) in [
        (203, [0, 1_080, -1_440, -360, 100, 560]),
        (300, [0, 0, 0, 0, -1_200, 1_200]),
    ] {
        let settings = Settings {
            resolution,
            ..Settings::default()
        };
        let mut state = State::start(&settings).1;
        let mut out = [FILL; 30 * ROOM];
        let input = b"AAA\x1B*\x27\x03\x00\x80\x00\x01\x40\x1B\x02\x01\x02\x03";
        let report = state.read(input, usize::MAX, &mut out);
        assert_eq!((report.answer, report.read), (Answer::Done, input.len()));
        let places = records(&out[..report.written]).filter_map(|record| match record {
            Record::Tx { column, rest, .. } => Some((column, rest)),
            Record::Im {
                column,
                part: 1,
                rest,
                ..
            } => Some((column, rest)),
            _ => None,
        });
        let (columns, came): (Vec<u16>, Vec<i16>) = places.unzip();
        assert_eq!(came, rests);
        let pairs = columns.into_iter().zip(rests);
        let exact = pairs.map(|(column, rest)| place(column, rest, resolution));
        assert!(exact.eq([0, 360, 720, 1_080, 1_100, 1_120]));
    }
}

#[test]
fn held_stops_of_any_count() {
    let mut list = Stops::NONE;
    for (count, held) in [(0, 0), (3, 3), (32, 32), (33, 32), (u32::MAX, 32)] {
        list.count = count;
        assert_eq!(list.held().len(), held);
    }
    assert_eq!(COLUMNS, 32);
}
