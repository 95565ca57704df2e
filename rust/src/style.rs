//! The bits of a letter's style; see [`Record::Tx`](crate::Record::Tx).

/// ESC E.
pub const BOLD: u16 = 1;
/// ESC G.
pub const DOUBLE_STRIKE: u16 = 1 << 1;
/// ESC 4.
pub const ITALIC: u16 = 1 << 2;
/// ESC - 1.
pub const UNDERLINE: u16 = 1 << 3;
/// ESC S 0.
pub const SUPERSCRIPT: u16 = 1 << 4;
/// ESC S 1.
pub const SUBSCRIPT: u16 = 1 << 5;
/// ESC W 1, SO: the advance is doubled already.
pub const DOUBLE_WIDTH: u16 = 1 << 6;
/// ESC w 1.
pub const DOUBLE_HEIGHT: u16 = 1 << 7;
/// ESC q 1 and 3.
pub const OUTLINE: u16 = 1 << 8;
/// ESC q 2 and 3.
pub const SHADOW: u16 = 1 << 9;
/// ESC p 1.
pub const PROPORTIONAL: u16 = 1 << 10;
/// SI: the advance is reduced already.
pub const REDUCED: u16 = 1 << 11;
/// ESC t 0: of the two code tables the italic one, whose upper half is the
/// lower in italics.
pub const ITALIC_TABLE: u16 = 1 << 12;
/// ESC % 1: a character that was downloaded.
pub const DOWNLOAD: u16 = 1 << 13;
