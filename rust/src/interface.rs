//! The functions of the library as the header declares them, for a caller
//! that does without the cover.

use crate::{Settings, State};

/// The bytes read and written by a reading call.
#[repr(C)]
pub struct Counts {
    pub read: usize,
    pub written: usize,
}

/// A part of a list of records: the bytes before it, and its own.
#[repr(C)]
pub struct Part {
    pub offset: usize,
    pub length: usize,
}

extern "C" {
    /// See [`State::start`].
    pub fn escp_start(state: *mut State, settings: *const Settings) -> u8;

    /// See [`State::read`].
    pub fn escp_read(
        state: *mut State,
        input: *const u8,
        input_length: usize,
        allowance: usize,
        out: *mut u8,
        out_length: usize,
        counts: *mut Counts,
    ) -> u8;

    /// See [`slot`](crate::slot).
    pub fn escp_slot(records: *const u8, length: usize, from: u16, to: u16, part: *mut Part) -> u8;

    /// See [`write`](crate::write).
    pub fn escp_write(
        letters: *const u8,
        letters_length: usize,
        out: *mut u8,
        out_length: usize,
        written: *mut usize,
    ) -> u8;
}
