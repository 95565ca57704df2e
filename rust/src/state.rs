//! The settings of a start and the state of the printer, field by field as in
//! the C interface.

use core::mem::transmute;

/// The numbers of a state.
pub const REGISTERS: usize = 244;
/// The room of a list of tab stops.
pub const TAB_STOPS: usize = 32;
/// The most horizontal tab stops.
pub const COLUMNS: usize = 32;
/// The most vertical tab stops of a channel.
pub const LINES: usize = 16;
/// The vertical channels, 0 to 7.
pub const CHANNELS: usize = 8;
/// The places of their stops, sixteen a channel.
pub const CHANNEL_STOPS: usize = 128;

/// [`State::kind`]: nothing is waited for.
pub const NOTHING: u32 = 0;
/// [`State::kind`]: an escape's second byte.
pub const SECOND_BYTE: u32 = 1;
/// [`State::kind`]: the first argument of an escape, or its only one; the third
/// byte of ESC i; the mode of ESC *.
pub const FIRST_ARGUMENT: u32 = 2;
/// [`State::kind`]: the second argument; that of ESC C after 0; that of ESC i
/// after "a"; the low byte of ESC *.
pub const SECOND_ARGUMENT: u32 = 3;
/// [`State::kind`]: a byte of a tab stop list that sets stops.
pub const STOP_LIST: u32 = 4;
/// [`State::kind`]: image data.
pub const IMAGE_DATA: u32 = 5;
/// [`State::kind`]: the third argument: the high byte of ESC *.
pub const THIRD_ARGUMENT: u32 = 6;
/// [`State::kind`]: a byte of the list of ESC b with a channel above 7.
pub const DROPPED_LIST: u32 = 7;

/// What a start is asked for. Any numbers whatever may be passed.
#[repr(C)]
#[derive(Clone, Copy, PartialEq, Eq, Debug)]
pub struct Settings {
    /// Dots to the inch: 300, or 203 (203 across and 200 down).
    pub resolution: u32,
    /// Any number but 0: CR feeds a line.
    pub auto_feed: u32,
    /// The width of the paper, in units of 1/3600 inch: 7,200 to 28,800.
    pub width: u32,
}

/// A list of tab stops, of which the first `count` are held, ascending
/// strictly; stops past `count` are not looked at, and may be any number.
///
/// Horizontal ones are columns, from 1 to 255, and at most [`COLUMNS`].
/// Vertical ones are distances from the top, from 1 to 79,199, and at most
/// [`LINES`].
#[repr(C)]
#[derive(Clone, Copy, PartialEq, Eq, Debug)]
pub struct Stops {
    pub count: u32,
    pub stops: [u32; TAB_STOPS],
}

/// The vertical channels. Channel m has the sixteen places from 16 m on; its
/// count is 0 if it was never set, else one more than the stops that it holds,
/// at most 17. These are distances from the top, from 1 to 79,199, and ascend
/// strictly; places past them are not looked at, and may be any number.
#[repr(C)]
#[derive(Clone, Copy, PartialEq, Eq, Debug)]
pub struct Channels {
    pub counts: [u32; CHANNELS],
    pub stops: [u32; CHANNEL_STOPS],
}

/// The state of the printer: [`REGISTERS`] numbers. It is the caller's, to
/// keep, copy, compare, store or read; the library has no other memory.
///
/// Lengths are in units of 1/3600 inch. A flag is 0 or 1. The numbers given
/// here are those that the library leaves. Any others may stand in a state
/// that is passed: [`State::read`] tests it first, and refuses it, as it came,
/// if a single one is not as said here.
#[repr(C)]
#[derive(Clone, Copy, PartialEq, Eq, Debug)]
pub struct State {
    /// What is waited for, [`NOTHING`] to [`DROPPED_LIST`]. Of the next five, a
    /// number that the kind does not use is 0.
    pub kind: u32,
    /// Kinds 2, 3, 4 and 6: the escape's second byte: of kind 2 one that takes
    /// arguments, as 41h for ESC A, or i, which takes a third byte; of kind 3
    /// one that takes two ($, \\, K, L, Y or Z), or C, whose first argument is
    /// then 0, or i, whose third byte is then 61h, "a", or *, whose first
    /// argument is then a mode that is listed; of kind 4 D, or B for a vertical
    /// list, of ESC B or ESC b; of kind 6 *.
    pub command: u32,
    /// Kinds 3 and 6: the last that came, 0 to 255, of * in kind 3 the mode's
    /// number; kinds 4 and 7: the list byte before, 0 at the beginning.
    pub argument: u32,
    /// Kinds 5 and 6: the mode's number. 0, 1, 2, 3, 4 and 6 have one byte a
    /// column, 60, 30, 30, 15, 45 and 40 units wide; 32, 33, 38, 39 and 40 have
    /// three, 60, 30, 40, 20 and 10 units wide. The data of ESC K, L, Y and Z
    /// are modes 0, 1, 2 and 3. Kind 4, command B: the channel that the list
    /// sets, 0 to 7.
    pub image_mode: u32,
    /// Kind 5: which byte of its column comes next: 1 to 3 in modes of three
    /// bytes, 1 in the others.
    pub image_byte: u32,
    /// Kind 5: the image columns left, the begun one included, 1 to 65,535.
    pub image_columns: u32,
    /// Where the next letter stands, from the left of the paper: left to
    /// right, both included.
    pub across: u32,
    /// Where the next letter stands, from the top of the page: below the edge,
    /// which is page less skip.
    pub down: u32,
    /// Left margin, below the right one.
    pub left: u32,
    /// Right margin, at most the width of the paper.
    pub right: u32,
    /// Page length, 3,600 to 79,200.
    pub page: u32,
    /// Perforation skip, at most the page length less 3,600.
    pub skip: u32,
    /// Line amount, at most 5,100.
    pub line: u32,
    /// Dots to the inch across: 300 or 203.
    pub dots_across: u32,
    /// Dots to the inch down, by those across: 300 or 200.
    pub dots_down: u32,
    /// Flag: CR feeds a line.
    pub auto_feed: u32,
    /// The width of the paper, 7,200 to 28,800.
    pub paper_width: u32,
    /// Letters of an inch: 10, 12 or 15.
    pub pitch: u32,
    /// ESC SP, 0 to 127.
    pub spacing: u32,
    /// Flag: ESC W 1.
    pub wide: u32,
    /// Flag: SO, to the end of the line.
    pub wide_once: u32,
    /// Flag: SI.
    pub reduced: u32,
    /// Flag: ESC p 1.
    pub proportional: u32,
    /// Flag: ESC E.
    pub bold: u32,
    /// Flag: ESC G.
    pub double_strike: u32,
    /// Flag: ESC 4.
    pub italic: u32,
    /// Flag: ESC - 1.
    pub underline: u32,
    /// Flag: ESC S 0.
    pub superscript: u32,
    /// Flag: ESC S 1.
    pub subscript: u32,
    /// ESC k, 0 to 255.
    pub font: u32,
    /// ESC R, 0 to 13 or 64.
    pub country: u32,
    /// ESC q, 0 to 3.
    pub outline: u32,
    /// Flag: ESC w 1.
    pub double_height: u32,
    /// Flag: ESC t 0.
    pub italic_table: u32,
    /// Flag: ESC % 1.
    pub download: u32,
    /// Flag: ESC x 0.
    pub draft: u32,
    /// Flag: 80h to 9Fh are letters (ESC 6).
    pub upper_prints: u32,
    /// The style bits of a TX; they must agree with the settings above.
    pub style: u32,
    /// The width of a letter; it must agree with the settings above.
    pub advance: u32,
    /// The width that stops and margins count in: 360 if proportional, else
    /// the advance; it must agree with the settings above.
    pub column_width: u32,
    /// The advance in dots across: the whole dots, and 65,536 times what is
    /// over, in 1/3600 dot; it must agree with the settings above.
    pub advance_dots: u32,
    /// The channel that VT uses, 0 to 7.
    pub chosen: u32,
    /// Horizontal stops in force.
    pub columns: Stops,
    /// Of a list that has not ended: horizontal of ESC D, or vertical of ESC B
    /// and ESC b. It is looked at only while such a list is waited for, and may
    /// be any numbers else; the last stop is then not above the list byte
    /// before, or for vertical ones that byte times the line amount.
    pub gathered: Stops,
    /// Vertical stops in force.
    pub channels: Channels,
}

impl Default for Settings {
    /// 300 dots, automatic line feed off, the widest paper.
    fn default() -> Settings {
        Settings {
            resolution: 300,
            auto_feed: 0,
            width: 28_800,
        }
    }
}

impl Stops {
    /// No stops, and 0 in every slot.
    pub const NONE: Stops = Stops {
        count: 0,
        stops: [0; TAB_STOPS],
    };

    /// The stops that are held, as many of them as there is room for.
    pub fn held(&self) -> &[u32] {
        let count = usize::try_from(self.count).unwrap_or(TAB_STOPS);
        &self.stops[..count.min(TAB_STOPS)]
    }
}

impl Channels {
    /// The stops that a channel holds, or none if it was never set.
    ///
    /// # Panics
    ///
    /// If there is no such channel.
    pub fn held(&self, channel: usize) -> Option<&[u32]> {
        let count = usize::try_from(self.counts[channel]).unwrap_or(LINES + 1);
        let places = &self.stops[LINES * channel..LINES * (channel + 1)];
        Some(&places[..count.checked_sub(1)?.min(LINES)])
    }
}

impl State {
    /// The state of these numbers, in the order of its fields.
    pub const fn from_registers(registers: [u32; REGISTERS]) -> State {
        // SAFETY: a State is such an array: its fields are of u32 alone, laid
        // out in their order, and both types have the same size, or this would
        // not compile.
        unsafe { transmute::<[u32; REGISTERS], State>(registers) }
    }

    /// The numbers of the state, in the order of its fields.
    pub const fn registers(&self) -> [u32; REGISTERS] {
        // SAFETY: as above.
        unsafe { transmute::<State, [u32; REGISTERS]>(*self) }
    }
}
