//! The letters of a page, and what shows of those that are struck over each
//! other.

use crate::letters::{
    character, is_blank, BOLD, DOUBLE_STRIKE, DOUBLE_WIDTH, ITALIC, PROPORTIONAL, REDUCED,
    UNDERLINE,
};
use crate::page::Page;
use ierbulosc::Record;

/// The width of the columns of tab stops in proportional letters, in units.
const PROPORTIONAL_COLUMN: u16 = 360;

/// The widths of letters without spacing, the widest first.
const WIDTHS: [u16; 3] = [360, 300, 240];
const REDUCED_WIDTHS: [u16; 3] = [240, 216, 180];

/// The style bits that count: those that a terminal shows, and one of the width.
const KEPT: u16 = BOLD | ITALIC | UNDERLINE | DOUBLE_WIDTH | REDUCED;

/// A letter of the page: its place in dots, its width in units.
#[derive(Clone, Copy)]
pub struct Letter {
    pub column: u16,
    /// The column of the last one to the right that it shows with.
    pub last: u16,
    pub row: u16,
    pub advance: u16,
    pub sign: char,
    pub style: u16,
    /// The columns of the tab stops are as wide.
    pub column_width: u16,
    /// Whether it is struck over another letter, or another over it, so that
    /// neither can be read; and how often the same one is.
    pub struck: bool,
    pub again: u16,
    /// The width of the blank right before it, if there is one; see [`inked`].
    blank: u16,
    /// Its place among the letters as they came.
    pub order: u32,
}

impl Letter {
    /// The letter of a record, if it is one. One struck twice is bold.
    pub fn of(order: u32, record: Record, across: u32) -> Option<Letter> {
        let Record::Tx {
            column,
            row,
            byte,
            style,
            country,
            advance,
            ..
        } = record
        else {
            return None;
        };
        let (sign, mut style) = character(byte, style, country, across);
        if style & DOUBLE_STRIKE != 0 {
            style |= BOLD;
        }
        Some(Letter {
            column,
            last: column,
            row,
            advance,
            sign: if is_blank(sign) { ' ' } else { sign },
            style: style & KEPT,
            column_width: if style & PROPORTIONAL != 0 {
                PROPORTIONAL_COLUMN
            } else {
                advance
            },
            struck: false,
            again: 0,
            blank: 0,
            order,
        })
    }

    /// Its width without the space that ESC SP adds, as far as its record tells: the
    /// widest that there is.
    pub fn own_width(&self) -> u16 {
        let widths = match self.style & REDUCED {
            0 => WIDTHS,
            _ => REDUCED_WIDTHS,
        };
        let times = match self.style & DOUBLE_WIDTH {
            0 => 1,
            _ => 2,
        };
        let mut widths = widths.iter().map(|width| width * times);
        let widest = widths.find(|&width| width <= self.advance);
        widest.unwrap_or(self.advance)
    }

    pub fn is_blank(&self) -> bool {
        self.sign == ' '
    }

    /// Whether the letter is struck over one that does not stand to the right
    /// of it: less than half of the narrower one's width lies between.
    fn strikes(&self, below: &Letter, across: u32) -> bool {
        let apart = u32::from(self.column - below.column);
        let narrower = u32::from(self.advance.min(below.advance));
        2 * apart * 3_600 < narrower * across
    }

    /// Makes of another letter what shows where this one is struck over it, or it
    /// over this one; it does not stand to the right of this one. A blank hides
    /// nothing.
    fn strike(&self, below: &mut Letter) {
        let (ours, theirs) = ((self.sign, self.style), (below.sign, below.style));
        let (sign, style) = if self.order > below.order {
            struck(theirs, ours)
        } else {
            struck(ours, theirs)
        };
        if below.is_blank() && !self.is_blank() {
            *below = *self;
        } else if below.is_blank() || !self.is_blank() {
            below.struck |= self.struck || hides(self.sign, below.sign);
            below.again += u16::from(self.sign == below.sign);
            below.last = self.column;
            below.advance = below.advance.max(self.advance);
            // An underscore adds a line, and is not what is read.
            below.order = match (below.sign, self.sign) {
                ('_', _) => self.order,
                (_, '_') => below.order,
                _ => below.order.max(self.order),
            };
        }
        (below.sign, below.style) = (sign, style);
    }

    /// How far to the right of the end of another letter it begins, in units
    /// times dots to the inch; below 0 where they overlap.
    pub fn gap(&self, before: &Letter, across: u32) -> i64 {
        let between = i64::from(self.column) - i64::from(before.last);
        between * 3_600 - i64::from(before.advance) * i64::from(across)
    }

    /// Whether it begins a word: a blank, at least half of which shows, or most of
    /// one's width lies between it and the letter before it.
    pub fn begins_word(&self, before: &Letter, across: u32) -> bool {
        let narrower = i64::from(self.advance.min(before.advance));
        let (gap, blank) = (self.gap(before, across), i64::from(self.blank));
        let across = i64::from(across);
        blank > 0 && 2 * gap >= blank * across || 4 * gap >= 3 * narrower * across
    }

    /// Whether it begins a word, and no blank was printed before it.
    pub fn is_set_apart(&self, before: &Letter, across: u32) -> bool {
        self.blank == 0 && self.begins_word(before, across)
    }

    /// Whether more than a blank lies between it and the letter before it.
    pub fn is_far(&self, before: &Letter, across: u32) -> bool {
        let wider = i64::from(self.advance.max(before.advance).max(self.blank));
        2 * self.gap(before, across) > 3 * wider * i64::from(across)
    }
}

/// The letters of a page, as they came, at so many dots to the inch.
pub fn letters(page: &Page, across: u32) -> impl Iterator<Item = Letter> + '_ {
    let records = (0..).zip(page.letters.records());
    records.filter_map(move |(order, record)| Letter::of(order, record, across))
}

/// The letters of a line as they show, from the left: of those that are struck
/// over each other one is left.
pub fn shown(line: &[Letter], across: u32) -> Vec<Letter> {
    let mut shown: Vec<Letter> = Vec::with_capacity(line.len());
    for &letter in line {
        match shown.last_mut() {
            Some(below) if letter.strikes(below, across) => letter.strike(below),
            _ => shown.push(letter),
        }
    }
    shown
}

/// Those of a line's letters that are no blanks.
pub fn inked(shown: &[Letter]) -> Vec<Letter> {
    let mut inked = Vec::with_capacity(shown.len());
    let mut blank = 0;
    for &letter in shown {
        if letter.is_blank() {
            blank = letter.advance;
        } else {
            inked.push(Letter { blank, ..letter });
            blank = 0;
        }
    }
    inked
}

/// Whether of two letters struck over each other neither can be read.
fn hides(one: char, other: char) -> bool {
    one != other && ![one, other].iter().any(|sign| matches!(sign, ' ' | '_'))
}

/// What a letter struck over another shows, each a sign and its style: the newer
/// one; but a blank leaves what it is struck over, an underscore underlines it,
/// and a letter struck over itself is bold.
fn struck(below: (char, u16), over: (char, u16)) -> (char, u16) {
    let both = below.1 | over.1;
    match (below.0, over.0) {
        (sign, ' ') => (sign, below.1 | over.1 & UNDERLINE),
        (' ', sign) => (sign, over.1 | below.1 & UNDERLINE),
        (one, other) if one == other => (one, both | BOLD),
        (sign, '_') | ('_', sign) => (sign, both | UNDERLINE),
        _ => over,
    }
}
