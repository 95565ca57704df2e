//! Reads the ESC/P legacy page language: bytes come in, placed records come
//! out. [`write()`] goes the other way, from letters with places to ESC/P.
//!
//! This is a safe cover over the static library libierbulosc.a, whose C
//! interface is include/escp.h. The library keeps nothing between calls,
//! allocates nothing and always returns; all it knows is in [`State`]. The cover
//! needs no standard library either.
//!
//! The library is for x86-64 Linux; for AArch64 and for RISC-V of 64 bits
//! boards/library compiles the same proved code, to a folder that
//! `IERBULOSC_LIB` may name. The proofs are of the code, with a `usize` of 64
//! bits, and what a compiler makes of it no proof covers, for any processor.
//! Processors of other sizes, or with the high byte first, are not for it.
//!
//! ```
//! use ierbulosc::{records, Answer, Record, Settings, State, ROOM};
//!
//! let (answer, mut state) = State::start(&Settings::default());
//! assert_eq!(answer, Answer::Done);
//! let mut out = [0; 2 * ROOM];
//! let report = state.read(b"A\n", usize::MAX, &mut out);
//! assert_eq!((report.answer, report.read), (Answer::Done, 2));
//! let mut records = records(&out[..report.written]);
//! let letter = records.next();
//! assert!(matches!(letter, Some(Record::Tx { column: 0, row: 0, byte: b'A', .. })));
//! assert_eq!(records.next(), Some(Record::Ln { row: 50, pages: 0 }));
//! assert_eq!(records.next(), None);
//! ```

#![no_std]

mod answer;
mod characters;
mod geometry;
pub mod interface;
mod letters;
mod records;
mod state;
pub mod style;

use interface::{escp_read, escp_slot, escp_start, escp_write, Counts, Part};

pub use answer::Answer;
pub use characters::character;
pub use geometry::*;
pub use letters::*;
pub use records::*;
pub use state::*;

/// The version of cover, header and library.
pub const VERSION: &str = env!("CARGO_PKG_VERSION");

/// The room that must be left in the output for a byte to be read: it writes
/// at most two records.
pub const ROOM: usize = 2 * RECORD_SIZE;

/// What a reading call came back with.
#[derive(Clone, Copy, PartialEq, Eq, Debug)]
pub struct Report {
    /// [`Answer::Done`], [`Answer::AllowanceUsed`], [`Answer::OutputFull`] or
    /// [`Answer::StateRefused`].
    pub answer: Answer,
    /// How many bytes of the input were read.
    pub read: usize,
    /// How many bytes of the output were written, a multiple of
    /// [`RECORD_SIZE`].
    pub written: usize,
}

impl State {
    /// Starts a printer with these settings.
    ///
    /// The answer and the state with it:
    /// - [`Answer::Done`]: the power-on state of these settings;
    /// - [`Answer::SettingsRefused`]: the resolution is neither 300 nor 203, or
    ///   the width is not from 7,200 to 28,800; the power-on state of
    ///   [`Settings::default`].
    pub fn start(settings: &Settings) -> (Answer, State) {
        let mut state = State::from_registers([0; REGISTERS]);
        // SAFETY: the pointers are to whole structs, the state's to one that
        // no one else holds during the call. Its fields are plain numbers, so
        // that whatever the library writes there is a State again. The library
        // only reads the settings and keeps no pointer.
        let answer = unsafe { escp_start(&mut state, settings) };
        (Answer::of(answer), state)
    }

    /// Reads input into records: at most `allowance` bytes of it, and as long
    /// as [`ROOM`] bytes of output are left. Before each byte it tests for
    /// [`Answer::Done`], [`Answer::AllowanceUsed`] and [`Answer::OutputFull`],
    /// in this order.
    ///
    /// - On these three answers `self` is the new state; `read` bytes of the
    ///   input were read; `written` bytes were written at the beginning of
    ///   `out`. To go on after the last two, pass the rest of the input.
    /// - [`Answer::StateRefused`]: `self` is none that the library leaves: a
    ///   number is not as given for it. This is tested before all else. `self`
    ///   stays as it was, and both counts are 0.
    ///
    /// What `out` holds past `written` stays as it was. Input may come in
    /// pieces of any length, cut anywhere, even inside a command: the records
    /// are those of the whole. Any state whatever may be passed.
    pub fn read(&mut self, input: &[u8], allowance: usize, out: &mut [u8]) -> Report {
        let mut counts = Counts {
            read: 0,
            written: 0,
        };
        // SAFETY: no pointer is null, even of an empty slice, and each is good
        // for the length passed with it. The state, the output and the counts
        // are held exclusively, so that none of them overlaps another or the
        // input. All of them are plain numbers, which the library may set to
        // any value. The library writes nowhere else and keeps no pointer.
        let answer = unsafe {
            escp_read(
                self,
                input.as_ptr(),
                input.len(),
                allowance,
                out.as_mut_ptr(),
                out.len(),
                &mut counts,
            )
        };
        Report {
            answer: Answer::of(answer),
            read: counts.read,
            written: counts.written,
        }
    }
}

/// Finds what stands under a slot now: of a list of records, the last TX that
/// survives on the present page and whose column lies from `from` to `to`,
/// both included. The list is the output of reading calls, joined in order.
///
/// - The present page begins after the last LN whose pages are not 0
///   ([`NEW_TOP`] counts); without such an LN, at the list's beginning.
/// - On it a CL voids the TX since the last LN of any pages, CL, or the list's
///   beginning; the others survive.
/// - A TX lies where its column says, however far to the right its letter
///   reaches. Records with any other mark count for nothing. Records of
///   several starts joined are one list.
///
/// The answer and the part of the list with it:
/// - [`Answer::Done`]: the record's [`RECORD_SIZE`] bytes, where they stand in the
///   list. The part is empty if there is no such record, as where `from` is
///   above `to`.
/// - [`Answer::LengthRefused`]: the list's length is no multiple of
///   [`RECORD_SIZE`]. This is tested before all else. The part is empty.
///
/// The list may be any bytes. The search begins at the newest record, and ends
/// where the answer is certain: at the record found, or where the present page
/// begins.
///
/// ```
/// use ierbulosc::{records, slot, Answer, Record, Settings, State, ROOM};
///
/// let (_, mut state) = State::start(&Settings::default());
/// let mut out = [0; 3 * ROOM];
/// let report = state.read(b"A\nB", usize::MAX, &mut out);
/// let list = &out[..report.written];
/// let (answer, part) = slot(list, 0, 29);
/// assert_eq!(answer, Answer::Done);
/// let newest = records(part).next();
/// assert!(matches!(newest, Some(Record::Tx { byte: b'B', row: 50, .. })));
/// let (answer, part) = slot(list, 30, 59);
/// assert_eq!(answer, Answer::Done);
/// assert!(part.is_empty());
/// ```
pub fn slot(records: &[u8], from: u16, to: u16) -> (Answer, &[u8]) {
    let mut part = Part {
        offset: 0,
        length: 0,
    };
    // SAFETY: no pointer is null, even of an empty slice, and the list's is
    // good for its length. The part is held exclusively, so that it does not
    // overlap the list, and is plain numbers, which the library may set to any
    // value. The library only reads the list and keeps no pointer.
    let answer = unsafe { escp_slot(records.as_ptr(), records.len(), from, to, &mut part) };
    // The part lies in the list, as is proved; a slice cannot know it.
    let rest = records.get(part.offset..).unwrap_or_default();
    let answer = Answer::of(answer);
    (answer, rest.get(..part.length).unwrap_or_default())
}

/// Writes a card: letters with places in units, as ESC/P that begins with
/// ESC @. Read from a start at a width of 28,800, automatic line feed off, at
/// 300 or 203 dots, it prints these letters at exactly these places, in this
/// order, plain and in 10 cpi, and no others; no page is turned, nothing is
/// passed over, and nothing is waited for at its end.
///
/// Places are multiples of 20, across at most 28,440, down at most 39,580 and
/// not less than that of the letter before.
///
/// The answer and the bytes written, at the beginning of the output, with it:
/// - [`Answer::Done`]: the card; without letters ESC @ alone;
/// - [`Answer::ByteRefused`], [`Answer::PlaceRefused`]: of the first letter
///   that cannot be written, its byte, or else its place; nothing is written;
/// - [`Answer::RoomRefused`]: the output is shorter than [`card_room`] says,
///   though fewer bytes may be written. This is tested last. Nothing is
///   written.
///
/// The output past what is written stays as it was.
///
/// ```
/// use ierbulosc::{card_room, write, Answer, Letter};
///
/// let mut out = [0; card_room(1)];
/// let (answer, card) = write(&[Letter::new(b'A', 80, 40)], &mut out);
/// assert_eq!(answer, Answer::Done);
/// assert_eq!(card, b"\x1B@\x1BJ\x02\x1B$\x01\x00\x1B\\\x01\x00A");
/// let (answer, card) = write(&[Letter::new(b'A', 81, 40)], &mut out);
/// assert_eq!(answer, Answer::PlaceRefused);
/// assert!(card.is_empty());
/// ```
pub fn write<'a>(letters: &[Letter], out: &'a mut [u8]) -> (Answer, &'a [u8]) {
    let mut written = 0;
    // SAFETY: no pointer is null, even of an empty slice, and each is good for
    // its length: letters are bytes, LETTER_SIZE each, without others between.
    // Output and count are held exclusively, so that they overlap nothing, and
    // are plain numbers, which the library may set to any value. The library
    // only reads the letters and keeps no pointer.
    let answer = unsafe {
        escp_write(
            letters.as_ptr().cast(),
            size_of_val(letters),
            out.as_mut_ptr(),
            out.len(),
            &mut written,
        )
    };
    // They lie in the output, as is proved; a slice cannot know it.
    (Answer::of(answer), out.get(..written).unwrap_or_default())
}
