//! Letters that follow each other, and image data, taken in runs: what their
//! records have in common is reckoned once.

use crate::reading::Reading;
use crate::records::{Words, RECORD_SIZE};
use crate::state::{dot_parts, rounded, Rounded, Waiting};
use crate::ROOM_FOR_A_BYTE;
use std::array::from_fn;

impl Reading<'_> {
    /// As [`Reading::bytes`], in runs.
    pub fn runs(&mut self, input: &[u8]) -> usize {
        let mut read = 0;
        while read < input.len() && self.records.room() >= ROOM_FOR_A_BYTE {
            read += self.run(&input[read..]);
        }
        read
    }

    /// Reads the run that the input begins with, or one byte; how many.
    #[inline(always)]
    fn run(&mut self, input: &[u8]) -> usize {
        let first = input[0];
        let placed = match self.state.waiting {
            Waiting::Nothing if !self.state.is_letter(first) => {
                self.control_byte(first);
                return 1;
            }
            Waiting::Nothing if self.a_letter_follows(input) => self.letters(input),
            Waiting::Image {
                mode,
                nth: 1,
                columns,
            } if input.len() > 1 => self.image(input, mode, columns),
            _ => 0,
        };
        if placed == 0 {
            self.step(first);
        }
        placed.max(1)
    }

    /// Whether the second byte is a letter.
    fn a_letter_follows(&self, input: &[u8]) -> bool {
        let second = input.get(1);
        second.is_some_and(|&byte| self.state.is_letter(byte))
    }

    /// Places the letters that the input begins with, as far as they fit; how
    /// many.
    #[inline(never)]
    fn letters(&mut self, input: &[u8]) -> usize {
        let Some(last) = self.state.right.checked_sub(self.advance) else {
            return 0;
        };
        let resolution = self.state.resolution;
        let (last, step) = (dot_parts(last, resolution), self.advance * resolution);
        let mut parts = dot_parts(self.state.across, resolution);
        let words = self.letter_record(Rounded::default(), 0).words();
        let mut count = 0;
        for (&byte, out) in input.iter().zip(self.records.places(1)) {
            if parts > last || !self.state.is_letter(byte) {
                break;
            }
            out.copy_from_slice(&words.with(rounded(parts), byte).bytes());
            parts += step;
            count += 1;
        }
        self.placed(count, count as u32 * self.advance);
        count
    }

    /// Places the image columns that the input begins with, as far as they are
    /// whole and fit; how many bytes.
    #[inline(never)]
    fn image(&mut self, input: &[u8], mode: u8, columns: u32) -> usize {
        let count = match self.mode.bytes {
            1 => self.image_columns::<1>(input, columns),
            _ => self.image_columns::<3>(input, columns),
        };
        let bytes = count * usize::from(self.mode.bytes);
        self.placed(bytes, count as u32 * self.mode.units);
        self.await_columns(mode, columns - count as u32);
        bytes
    }

    /// Writes the records of such columns, each of so many bytes; how many
    /// columns.
    #[inline(always)]
    fn image_columns<const BYTES: usize>(&mut self, input: &[u8], columns: u32) -> usize {
        let fit = (self.state.right - self.state.across) / self.mode.units;
        let most = BYTES * columns.min(fit) as usize;
        let columns = input[..input.len().min(most)].chunks_exact(BYTES);
        let resolution = self.state.resolution;
        let step = self.mode.units * resolution;
        let mut parts = dot_parts(self.state.across, resolution);
        let none = Rounded::default();
        let words: [Words; BYTES] =
            from_fn(|at| self.image_record(none, 0, self.mode, at as u8 + 1).words());
        let mut count = 0;
        for (bytes, out) in columns.zip(self.records.places(BYTES)) {
            let column = rounded(parts);
            let records = out.chunks_exact_mut(RECORD_SIZE);
            for ((&byte, words), record) in bytes.iter().zip(&words).zip(records) {
                record.copy_from_slice(&words.with(column, byte).bytes());
            }
            parts += step;
            count += 1;
        }
        count
    }

    /// Goes on after so many records, which move the place so far.
    fn placed(&mut self, records: usize, units: u32) {
        self.records.wrote(records);
        self.state.across += units;
    }
}
