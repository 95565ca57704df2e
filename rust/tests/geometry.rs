//! What the cover and the header say of a record's style and place holds of
//! what the library writes.

use ierbulosc::{dot, place, records, style, Answer, Record, Settings, State, ROOM};

/// The records of an input, and the state after it.
fn read(resolution: u32, input: &[u8]) -> (Vec<Record>, State) {
    let (answer, mut state) = State::start(&Settings {
        resolution,
        ..Settings::default()
    });
    assert_eq!(answer, Answer::Done);
    let mut out = vec![0; (input.len() + 1) * ROOM];
    let report = state.read(input, usize::MAX, &mut out);
    assert_eq!((report.answer, report.read), (Answer::Done, input.len()));
    (records(&out[..report.written]).collect(), state)
}

#[test]
fn style_bits_by_name() {
    let commands: [(&[u8], u16); 15] = [
        (b"", 0),
        (b"\x1BE", style::BOLD),
        (b"\x1BG", style::DOUBLE_STRIKE),
        (b"\x1B4", style::ITALIC),
        (b"\x1B-1", style::UNDERLINE),
        (b"\x1BS0", style::SUPERSCRIPT),
        (b"\x1BS1", style::SUBSCRIPT),
        (b"\x0E", style::DOUBLE_WIDTH),
        (b"\x1Bw1", style::DOUBLE_HEIGHT),
        (b"\x1Bq\x01", style::OUTLINE),
        (b"\x1Bq\x02", style::SHADOW),
        (b"\x1Bp1", style::PROPORTIONAL),
        (b"\x0F", style::REDUCED),
        (b"\x1Bt\x00", style::ITALIC_TABLE),
        (b"\x1B%1", style::DOWNLOAD),
    ];
    for (command, bits) in commands {
        let (list, state) = read(300, &[command, b"A"].concat());
        let is_so = |record: &Record| matches!(record, Record::Tx { style, .. } if *style == bits);
        assert!(list.len() == 1 && is_so(&list[0]), "{command:?}: {list:?}");
        assert_eq!(state.style, bits.into());
    }
}

/// A place in units, as the state has it before a letter, rounds to the
/// letter's dots, at stops too; the letter's column and rest give it back.
#[test]
fn places_round_to_dots() {
    for resolution in [300, 203] {
        for number in (0..1_100).step_by(3) {
            let [low, high] = u16::to_le_bytes(number / 3);
            let down = (number % 250) as u8;
            let go = [
                0x1B, b'$', low, high, 0x1B, b'\\', down, 0, 0x1B, b'J', down,
            ];
            let (_, before) = read(resolution, &go);
            let (list, _) = read(resolution, &[&go[..], b"A"].concat());
            let Some(&Record::Tx {
                column, row, rest, ..
            }) = list.last()
            else {
                panic!("{list:?}");
            };
            assert_eq!(u32::from(column), dot(before.across, before.dots_across));
            assert_eq!(u32::from(row), dot(before.down, before.dots_down));
            assert_eq!(place(column, rest, before.dots_across), before.across);
        }
        for width in [b"\x1BP", b"\x1BM", b"\x1Bg"] {
            let (list, state) = read(resolution, &[width, &b"\x1Bl\x02\tA\tB"[..]].concat());
            let stop = |at: usize| state.left + state.columns.held()[at] * state.column_width;
            let columns = list.iter().filter_map(|record| match record {
                Record::Tx { column, .. } => Some(u32::from(*column)),
                _ => None,
            });
            let columns: Vec<u32> = columns.collect();
            let stops = [0, 1].map(|at| dot(stop(at), state.dots_across));
            assert_eq!(columns, stops);
        }
    }
}
