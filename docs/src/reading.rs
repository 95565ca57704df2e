//! A reading call under way.

use crate::images::Mode;
use crate::records::Records;
use crate::state::State;
use crate::ROOM_FOR_A_BYTE;

/// The state, the output, and the numbers that follow from the state, kept
/// until something changes that they follow from.
pub struct Reading<'a> {
    pub state: &'a mut State,
    pub records: Records<'a>,
    /// The style field of a letter's record.
    pub style: u16,
    /// A letter's advance in units.
    pub advance: u32,
    /// The width that stops and margins count in.
    pub column_width: u32,
    /// The dot row of the place down.
    pub row: u16,
    /// The mode of the image data that is waited for, if any is.
    pub mode: Mode,
}

impl<'a> Reading<'a> {
    #[inline(always)]
    pub fn new(state: &'a mut State, out: &'a mut [u8]) -> Self {
        let advance = state.advance();
        Reading {
            style: state.style(),
            advance,
            column_width: state.column_width(advance),
            row: state.row(),
            mode: Mode::of(state.waiting),
            state,
            records: Records::new(out),
        }
    }

    /// Reads byte by byte while there is room; how many.
    pub fn bytes(&mut self, input: &[u8]) -> usize {
        for (read, &byte) in input.iter().enumerate() {
            if self.records.room() < ROOM_FOR_A_BYTE {
                return read;
            }
            self.step(byte);
        }
        input.len()
    }

    /// Changes a setting that only shows in a letter's record.
    pub fn set_style(&mut self, change: impl FnOnce(&mut State)) {
        change(self.state);
        self.style = self.state.style();
    }

    /// Changes a setting that widths follow from.
    pub fn set_width(&mut self, change: impl FnOnce(&mut State)) {
        self.set_style(change);
        self.advance = self.state.advance();
        self.column_width = self.state.column_width(self.advance);
    }

    /// Sets the place down.
    pub fn go_down(&mut self, down: u32) {
        self.state.down = down;
        self.row = self.state.row();
    }
}
