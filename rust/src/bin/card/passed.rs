//! What was passed over: how much, for which reasons, and where first.

use ierbulosc::{State, RECORD_SIZE, ROOM};

/// The reasons of a NO, by their numbers from 1 on.
const REASONS: [&str; 5] = [
    "unlisted",
    "not allowed",
    "past limits",
    "without room",
    "without a stop",
];
/// A NO's reason among the bytes of its record.
const REASON: usize = 8;

/// What was passed over for one reason.
#[derive(Clone, Copy, Default)]
struct Count {
    number: u64,
    /// Where the first of them came, counted from 0.
    first: u64,
}

/// What was passed over.
#[derive(Clone, Copy, Default)]
pub struct Passed([Count; REASONS.len()]);

impl Passed {
    /// Takes the records of a piece of input, the state before it, and how many
    /// bytes came before.
    pub fn take(&mut self, records: &[u8], before: &State, piece: &[u8], offset: u64) {
        for record in records.chunks_exact(RECORD_SIZE) {
            if !record.starts_with(b"NO") {
                continue;
            }
            let reason = record[REASON];
            if let Some(count) = self.0.get_mut(usize::from(reason.wrapping_sub(1))) {
                if count.number == 0 {
                    count.first = offset + place(before, piece, reason);
                }
                count.number += 1;
            }
        }
    }

    /// The words that tell it, if there is something.
    pub fn words(&self) -> Option<String> {
        let counts = self.0.iter().zip(REASONS);
        let told = counts.filter(|(count, _)| count.number > 0);
        let words = |(count, reason): (&Count, &str)| {
            format!("{} {reason} (first at byte {})", count.number, count.first)
        };
        let words: Vec<String> = told.map(words).collect();
        (!words.is_empty()).then(|| format!("passed over: {}", words.join(", ")))
    }
}

/// The place in a piece of input of the first byte that is passed over for this
/// reason: it is read anew, byte by byte.
#[cold]
fn place(before: &State, piece: &[u8], reason: u8) -> u64 {
    let mut state = *before;
    let mut out = [0; ROOM];
    let is_first = |byte: &[u8]| {
        let written = state.read(byte, 1, &mut out).written;
        let mut records = out[..written].chunks_exact(RECORD_SIZE);
        records.any(|record| record.starts_with(b"NO") && record[REASON] == reason)
    };
    piece.chunks(1).position(is_first).unwrap_or(0) as u64
}
