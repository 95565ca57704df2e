//! The records: of one size, low byte first.

use crate::state::Rounded;

/// The bytes of a record.
pub const RECORD_SIZE: usize = 16;

/// An LN's byte for a new top, where others have the pages turned.
pub const NEW_TOP: u8 = 255;

/// Why something is passed over: the style field of a NO record.
#[derive(Clone, Copy, PartialEq, Eq, Debug)]
pub enum Reason {
    Unlisted = 1,
    NotAllowed = 2,
    PastLimits = 3,
    DoesNotFit = 4,
    NoStop = 5,
}

/// The fields of a record; unnamed ones are 0.
#[derive(Clone, Copy, Default)]
pub struct Record {
    pub mark: [u8; 2],
    pub column: u16,
    pub row: u16,
    pub byte: u8,
    pub font: u8,
    pub style: u16,
    pub country: u8,
    pub advance: u16,
    pub rest: i16,
}

/// A record as two numbers, low byte first: its bytes 0 to 7, and 8 to 15.
#[derive(Clone, Copy)]
pub struct Words {
    head: u64,
    tail: u64,
}

impl Record {
    #[inline(always)]
    pub fn words(&self) -> Words {
        Words {
            head: u64::from(u16::from_le_bytes(self.mark))
                | u64::from(self.column) << 16
                | u64::from(self.row) << 32
                | u64::from(self.byte) << 48
                | u64::from(self.font) << 56,
            tail: u64::from(self.style)
                | u64::from(self.country) << 16
                | u64::from(self.advance) << 32
                | u64::from(self.rest as u16) << 48,
        }
    }
}

impl Words {
    /// With a column, its rest and a byte in place of 0.
    #[inline(always)]
    pub fn with(self, column: Rounded, byte: u8) -> Words {
        Words {
            head: self.head | u64::from(column.dot) << 16 | u64::from(byte) << 48,
            tail: self.tail | u64::from(column.rest as u16) << 48,
        }
    }

    #[inline(always)]
    pub fn bytes(self) -> [u8; RECORD_SIZE] {
        let mut bytes = [0; RECORD_SIZE];
        bytes[..8].copy_from_slice(&self.head.to_le_bytes());
        bytes[8..].copy_from_slice(&self.tail.to_le_bytes());
        bytes
    }
}

/// The output slice and how much of it is written.
pub struct Records<'a> {
    out: &'a mut [u8],
    written: usize,
}

impl<'a> Records<'a> {
    pub fn new(out: &'a mut [u8]) -> Self {
        Records { out, written: 0 }
    }

    pub fn room(&self) -> usize {
        self.out.len() - self.written
    }

    pub fn written(&self) -> usize {
        self.written
    }

    /// Writes one record; the caller has seen to the room.
    #[inline(always)]
    pub fn put(&mut self, record: &Record) {
        let end = self.written + RECORD_SIZE;
        self.out[self.written..end].copy_from_slice(&record.words().bytes());
        self.written = end;
    }

    /// The places of the next records, so many together, one record for each
    /// byte that may be read: the last record's room stays free.
    pub fn places(&mut self, together: usize) -> std::slice::ChunksExactMut<'_, u8> {
        let end = self.out.len() - RECORD_SIZE;
        self.out[self.written..end].chunks_exact_mut(together * RECORD_SIZE)
    }

    /// So many of these places were written to.
    pub fn wrote(&mut self, records: usize) {
        self.written += records * RECORD_SIZE;
    }

    /// LN: a feed to a new row, with the pages turned.
    pub fn line(&mut self, row: u16, pages: u8) {
        self.put(&Record {
            mark: *b"LN",
            row,
            byte: pages,
            ..Record::default()
        });
    }

    /// CL: what was placed on this line is void.
    pub fn clear(&mut self) {
        self.put(&Record {
            mark: *b"CL",
            ..Record::default()
        });
    }

    /// NO: a byte or command passed over.
    pub fn passed_over(&mut self, byte: u8, reason: Reason) {
        self.put(&Record {
            mark: *b"NO",
            byte,
            style: reason as u16,
            ..Record::default()
        });
    }
}
