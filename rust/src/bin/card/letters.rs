//! Which character a letter's byte is, and the names of its style's bits, as the
//! cover has them; and whether it shows.

pub use ierbulosc::character;
pub use ierbulosc::style::*;

/// Whether a character leaves no ink.
pub fn is_blank(letter: char) -> bool {
    matches!(letter, ' ' | '\u{a0}')
}
