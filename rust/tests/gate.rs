//! A page of a real producer (cases/README.md): what Ghostscript's driver
//! `lq850` sends of a card with a drawing of a gate, at 180 by 180 dots to the
//! inch, reads back to the very picture that Ghostscript draws of it as a
//! bitmap.

use ierbulosc::{dot_below, records, Answer, Record, Settings, State, NEW_TOP, NOTHING, ROOM};

const SENT: &[u8] = include_bytes!("../../cases/gate.prn");
const DRAWN: &[u8] = include_bytes!("../../cases/gate.pbm");

/// The driver's dots to the inch.
const DOTS: u32 = 180;

/// A picture: its width and height in dots, and where they are black, row by
/// row from the top.
#[derive(PartialEq, Eq)]
struct Picture {
    width: usize,
    height: usize,
    black: Vec<bool>,
}

impl Picture {
    /// The picture of a file of the kind P4: rows of eight dots to a byte, the
    /// high bit first, a row's last byte filled up.
    fn of_bitmap(file: &[u8]) -> Picture {
        let mut lines = file.splitn(4, |&byte| byte == b'\n');
        assert_eq!(lines.next(), Some(&b"P4"[..]));
        assert!(lines.next().unwrap().starts_with(b"#"));
        let size = std::str::from_utf8(lines.next().unwrap()).unwrap();
        let (width, height) = size.split_once(' ').unwrap();
        let (width, height) = (width.parse().unwrap(), height.parse().unwrap());
        let rows = lines.next().unwrap().chunks(usize::div_ceil(width, 8));
        assert_eq!(rows.len(), height);
        let dots = |row| (0..width).map(move |x| dot(row, x));
        Picture {
            width,
            height,
            black: rows.flat_map(dots).collect(),
        }
    }

    /// The picture of this size that image bytes leave, at so many dots to the
    /// inch across and down.
    fn of_records(size: &Picture, list: &[Record], (across, down): (u32, u32)) -> Picture {
        let mut black = vec![false; size.black.len()];
        for &record in list {
            let Record::Im {
                column,
                row,
                byte,
                part,
                advance,
                ..
            } = record
            else {
                continue;
            };
            assert_eq!(u32::from(advance) * DOTS, 3_600);
            let x = drivers_dot(column, across);
            let top = drivers_dot(row, down);
            for bit in (0..8).filter(|&bit| dot(&[byte], bit)) {
                let y = top + (dot_below(part, bit as u32) * DOTS / 3_600) as usize;
                assert!(x < size.width && y < size.height);
                black[y * size.width + x] = true;
            }
        }
        Picture { black, ..*size }
    }

    /// A line of signs for each row, to look at where pictures differ.
    fn shown(&self) -> String {
        let rows = self.black.chunks(self.width);
        let sign = |&black: &bool| if black { '#' } else { '.' };
        rows.map(|row| row.iter().map(sign).collect::<String>() + "\n")
            .collect()
    }
}

/// Whether a dot of these bytes is black, the high bit of the first one first.
fn dot(bytes: &[u8], at: usize) -> bool {
    bytes[at / 8] & (0x80 >> (at % 8)) != 0
}

/// The driver's dot that was rounded to a dot of the reader, of which there are
/// more to the inch: the nearest.
fn drivers_dot(rounded: u16, resolution: u32) -> usize {
    assert!(resolution > DOTS);
    ((2 * u32::from(rounded) * DOTS + resolution) / (2 * resolution)) as usize
}

/// The records of the page, read in pieces of so many bytes; nothing is waited
/// for at the end.
fn read(resolution: u32, piece: usize) -> Vec<Record> {
    let (answer, mut state) = State::start(&Settings {
        resolution,
        ..Settings::default()
    });
    assert_eq!(answer, Answer::Done);
    let mut all = Vec::new();
    let mut out = vec![0; (piece + 1) * ROOM];
    for input in SENT.chunks(piece) {
        let report = state.read(input, usize::MAX, &mut out);
        assert_eq!((report.answer, report.read), (Answer::Done, input.len()));
        all.extend(records(&out[..report.written]));
    }
    assert_eq!(state.kind, NOTHING);
    all
}

#[test]
fn the_very_picture() {
    let drawn = Picture::of_bitmap(DRAWN);
    assert_eq!((drawn.width, drawn.height), (360, 180));
    assert!(drawn.black.contains(&true));
    for (across, down) in [(300, 300), (203, 200)] {
        for piece in [1, 2, 100, SENT.len()] {
            let list = read(across, piece);
            let came = Picture::of_records(&drawn, &list, (across, down));
            assert!(came == drawn, "{across} dots:\n{}", came.shown());
        }
    }
}

/// The driver sends nothing that is passed over. Between ESC @ at the beginning
/// and FF at the end it turns no page, and its columns are whole.
#[test]
fn nothing_passed_over() {
    for across in [300, 203] {
        let list = read(across, SENT.len());
        let no = |record: &Record| matches!(record, Record::No { .. } | Record::Tx { .. });
        assert!(!list.iter().any(no), "{across} dots");
        let new_top = Record::Ln {
            row: 0,
            pages: NEW_TOP,
        };
        let turned = Record::Ln { row: 0, pages: 1 };
        assert_eq!(list[0], new_top);
        assert_eq!(list[list.len() - 2..], [turned, new_top]);
        let page = &list[1..list.len() - 2];
        let turns = |record: &Record| matches!(record, Record::Ln { pages: 1.., .. });
        assert!(!page.iter().any(turns));
        let parts = page.iter().filter_map(|record| match record {
            Record::Im { part, .. } => Some(*part),
            _ => None,
        });
        let parts: Vec<u8> = parts.collect();
        assert!(parts.chunks(3).all(|column| column == [1, 2, 3]));
    }
}
