//! Plain readers of the ESC/P legacy page language: bytes come in, placed
//! records come out. One unit is 1/3600 inch. [`read`] takes byte by byte;
//! [`read_in_runs`] takes letters that follow each other, and image data, in
//! runs. Both give the same answers. [`slot`] asks a list of records what
//! stands in a range of columns now. [`write`] goes the other way, from letters
//! to ESC/P.

mod bounds;
mod commands;
mod images;
mod place;
mod reading;
mod records;
mod runs;
mod slot;
mod state;
mod stops;
#[cfg(test)]
mod tests;
mod writing;

pub use slot::{slot, ANSWERED, LIST_REFUSED};
pub use state::{ChannelStops, State, Stops, Waiting, CHANNELS};
pub use writing::{
    write, BYTE_REFUSED, LETTERS_REFUSED, LETTER_SIZE, PLACE_REFUSED, ROOM_REFUSED, WRITTEN,
};

use reading::Reading;
use records::RECORD_SIZE;
use state::{NARROWEST_PAPER, WIDEST_PAPER};

/// The input is used up, or a start is accepted.
pub const INPUT_USED: u8 = 0;
/// The allowance is used and input is left.
pub const ALLOWANCE_USED: u8 = 1;
/// Under [`ROOM_FOR_A_BYTE`] output bytes are left, with input and allowance
/// left.
pub const OUTPUT_FULL: u8 = 2;
/// A start with a resolution neither 300 nor 203, or on paper that is too
/// narrow or too wide.
pub const START_REFUSED: u8 = 3;
/// The state is outside the bounds.
pub const STATE_REFUSED: u8 = 4;

/// The room that one byte may need: an automatic line and its letter.
pub const ROOM_FOR_A_BYTE: usize = 2 * RECORD_SIZE;

/// What a reading call answers: its number, bytes read and bytes written.
#[derive(Clone, Copy, PartialEq, Eq, Debug)]
pub struct Report {
    pub answer: u8,
    pub read: usize,
    pub written: usize,
}

/// Starts a printer: the answer's number and the power-on state.
pub fn start(dots: u32, auto_feed: bool, paper_width: u32) -> (u8, State) {
    match (dots, paper_width) {
        (300 | 203, NARROWEST_PAPER..=WIDEST_PAPER) => {
            (INPUT_USED, State::power_on(dots, auto_feed, paper_width))
        }
        _ => (START_REFUSED, State::power_on(300, false, WIDEST_PAPER)),
    }
}

/// Reads a piece of input: updates the state and writes records to `out`.
pub fn read(state: &mut State, input: &[u8], allowance: usize, out: &mut [u8]) -> Report {
    call(state, input, allowance, out, |reading, input| {
        reading.bytes(input)
    })
}

/// As [`read`], in runs.
pub fn read_in_runs(state: &mut State, input: &[u8], allowance: usize, out: &mut [u8]) -> Report {
    call(state, input, allowance, out, |reading, input| {
        reading.runs(input)
    })
}

/// A reading call whose allowed input is taken in one of the two ways, which
/// give how much of it was read before the output was full.
fn call(
    state: &mut State,
    input: &[u8],
    allowance: usize,
    out: &mut [u8],
    take: impl Fn(&mut Reading, &[u8]) -> usize,
) -> Report {
    if !state.accepted() {
        return Report {
            answer: STATE_REFUSED,
            read: 0,
            written: 0,
        };
    }
    let allowed = &input[..input.len().min(allowance)];
    let mut reading = Reading::new(state, out);
    let read = take(&mut reading, allowed);
    let answer = if read == input.len() {
        INPUT_USED
    } else if read == allowance {
        ALLOWANCE_USED
    } else {
        OUTPUT_FULL
    };
    Report {
        answer,
        read,
        written: reading.records.written(),
    }
}
