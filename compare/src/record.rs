//! A record's bytes: how many there are, and where its fields begin. Numbers of
//! two bytes have the low one first.

/// The bytes of a record.
pub const RECORD_SIZE: usize = 16;
/// The output that must be left to read a byte, which writes at most two
/// records.
pub const ROOM: usize = 2 * RECORD_SIZE;

pub const COLUMN: usize = 2;
pub const ROW: usize = 4;
pub const BYTE: usize = 6;
pub const FONT: usize = 7;
pub const STYLE: usize = 8;
pub const COUNTRY: usize = 10;
pub const ADVANCE: usize = 12;
pub const REST: usize = 14;

/// A record as bytes.
pub type Record = [u8; RECORD_SIZE];

/// A record with this mark, and 0 in its fields.
pub fn marked(mark: [u8; 2]) -> Record {
    let mut record = [0; RECORD_SIZE];
    record[..2].copy_from_slice(&mark);
    record
}

/// Sets a field of two bytes.
pub fn set(record: &mut Record, field: usize, number: u16) {
    record[field..field + 2].copy_from_slice(&number.to_le_bytes());
}

/// A field of two bytes.
pub fn number(record: &[u8], field: usize) -> u16 {
    u16::from_le_bytes([record[field], record[field + 1]])
}

/// Whether a record is an LN of so many pages.
pub fn is_feed(record: &[u8], pages: u8) -> bool {
    record[..2] == *b"LN" && record[BYTE] == pages
}

/// The dot nearest to a place, and the rest of the place in parts of a dot, of
/// which it has 3,600.
pub fn rounded(units: i64, per_inch: i64) -> (u16, i16) {
    let dot = (units * per_inch + 1_800).div_euclid(3_600);
    let rest = units * per_inch - 3_600 * dot;
    (dot as u16, rest as i16)
}
