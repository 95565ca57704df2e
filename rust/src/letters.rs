//! The letters that a card is written from.

/// The bytes of a letter: the byte, across (2 bytes), down (2), the low byte
/// first.
pub const LETTER_SIZE: usize = 5;

/// The bytes that a card begins with: ESC @.
pub const CARD_BEGIN: usize = 2;

/// The most bytes that a letter is written by: eight ESC J, ESC $, ESC \, the
/// letter.
pub const LETTER_MOST: usize = 33;

/// The room that a card of so many letters is to have, though fewer bytes may
/// be written.
pub const fn card_room(letters: usize) -> usize {
    CARD_BEGIN + LETTER_MOST * letters
}

/// A letter and its place in units of 1/3600 inch, as the bytes of a list.
#[repr(transparent)]
#[derive(Clone, Copy, PartialEq, Eq, Hash, Debug)]
pub struct Letter([u8; LETTER_SIZE]);

impl Letter {
    /// A letter, so far from the left of the paper and from the top of the
    /// page.
    pub const fn new(byte: u8, across: u16, down: u16) -> Letter {
        let across = across.to_le_bytes();
        let down = down.to_le_bytes();
        Letter([byte, across[0], across[1], down[0], down[1]])
    }

    pub const fn from_bytes(bytes: [u8; LETTER_SIZE]) -> Letter {
        Letter(bytes)
    }

    pub const fn to_bytes(self) -> [u8; LETTER_SIZE] {
        self.0
    }

    pub const fn byte(self) -> u8 {
        self.0[0]
    }

    pub const fn across(self) -> u16 {
        u16::from_le_bytes([self.0[1], self.0[2]])
    }

    pub const fn down(self) -> u16 {
        u16::from_le_bytes([self.0[3], self.0[4]])
    }
}
