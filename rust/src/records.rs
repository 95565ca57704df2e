//! The records that a reading call writes, by name.

use core::iter::FusedIterator;
use core::slice::ChunksExact;

/// The bytes of a record: mark (2 bytes), column (2), row (2), byte, font,
/// style (2), country, zero, advance (2), rest (2, signed). Numbers of two
/// bytes have the low byte first. An LN has its pages where others have the
/// byte, and a NO its reason in place of a style.
pub const RECORD_SIZE: usize = 16;

/// The pages of an [`Record::Ln`] that are none: the page begins anew, at its
/// top (ESC C, ESC @).
pub const NEW_TOP: u8 = 255;

/// [`Record::No`]: no control byte, escape or third byte of ESC i that is
/// listed.
pub const UNLISTED: u8 = 1;
/// [`Record::No`]: an argument or a setting that is not allowed; a mode of
/// ESC * that is not listed.
pub const NOT_ALLOWED: u8 = 2;
/// [`Record::No`]: past margin, page or stop limits.
pub const PAST_LIMITS: u8 = 3;
/// [`Record::No`]: a letter or an image column that does not fit.
pub const NO_FIT: u8 = 4;
/// [`Record::No`]: no stop to the right.
pub const NO_STOP: u8 = 5;

/// What a call has to say of the page. Columns and rows are in dots, advances
/// in units of 1/3600 inch, rests in 1/3600 dot.
#[derive(Clone, Copy, PartialEq, Eq, Debug)]
pub enum Record {
    /// A letter.
    Tx {
        column: u16,
        row: u16,
        byte: u8,
        /// The ESC k number.
        font: u8,
        /// Bits, by name in [`style`](crate::style); from the lowest: bold,
        /// double strike, italic, underline, superscript, subscript, double
        /// width, double height, two of the ESC q number, proportional,
        /// reduced, italic code table, download set.
        style: u16,
        /// The ESC R number.
        country: u8,
        advance: u16,
        /// How far the exact place is off the column, -1,800 to 1,799;
        /// [`place`](crate::place) gives that place.
        rest: i16,
    },
    /// A byte of image data.
    Im {
        column: u16,
        row: u16,
        byte: u8,
        /// Which byte of its column, 1 to 3 from the top, where one has three;
        /// else 0. It stands in the font's place.
        part: u8,
        /// The width of its column, in each of its bytes.
        advance: u16,
        /// How far the exact place is off the column, -1,800 to 1,799;
        /// [`place`](crate::place) gives that place.
        rest: i16,
    },
    /// A line fed or a page turned.
    Ln {
        /// The new row.
        row: u16,
        /// The pages turned, or [`NEW_TOP`].
        pages: u8,
    },
    /// The letters and image bytes since the last Ln, Cl or start are void.
    Cl,
    /// What was passed over.
    No {
        /// The letter, image byte or list byte, else the control byte or the
        /// escape's second byte, as received; where a third byte of ESC i is
        /// unlisted, that third byte.
        byte: u8,
        /// [`UNLISTED`] to [`NO_STOP`].
        reason: u8,
    },
}

impl Record {
    /// The record of these bytes; none if its mark is no record's.
    pub fn from_bytes(bytes: &[u8; RECORD_SIZE]) -> Option<Record> {
        let two = |at: usize| u16::from_le_bytes([bytes[at], bytes[at + 1]]);
        let (column, row, byte) = (two(2), two(4), bytes[6]);
        let (style, advance, rest) = (two(8), two(12), two(14) as i16);
        match [bytes[0], bytes[1]] {
            [b'T', b'X'] => Some(Record::Tx {
                column,
                row,
                byte,
                font: bytes[7],
                style,
                country: bytes[10],
                advance,
                rest,
            }),
            [b'I', b'M'] => Some(Record::Im {
                column,
                row,
                byte,
                part: bytes[7],
                advance,
                rest,
            }),
            [b'L', b'N'] => Some(Record::Ln { row, pages: byte }),
            [b'C', b'L'] => Some(Record::Cl),
            [b'N', b'O'] => Some(Record::No {
                byte,
                reason: bytes[8],
            }),
            _ => None,
        }
    }
}

/// The records of these bytes, which a reading call has written: `out` up to
/// [`Report::written`](crate::Report::written). Bytes that are no record are
/// skipped, and so is the part of one at the end.
pub fn records(written: &[u8]) -> Records<'_> {
    Records(written.chunks_exact(RECORD_SIZE))
}

/// The records of a slice of bytes, in order; see [`records`].
#[derive(Clone, Debug)]
pub struct Records<'a>(ChunksExact<'a, u8>);

impl Iterator for Records<'_> {
    type Item = Record;

    fn next(&mut self) -> Option<Record> {
        let mut rest = self.0.by_ref().filter_map(|bytes| bytes.try_into().ok());
        rest.find_map(Record::from_bytes)
    }
}

impl FusedIterator for Records<'_> {}
