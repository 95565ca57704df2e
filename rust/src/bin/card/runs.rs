//! The letters of a page as runs for pictures: letters beside each other in one
//! style, with their exact places in units.
//!
//! A letter hangs below its row by the height of a print head of 24 needles, 480
//! units, as an image column does.

use crate::letters::{
    character, is_blank, DOUBLE_HEIGHT, DOUBLE_WIDTH, SUBSCRIPT, SUPERSCRIPT, UNDERLINE,
};
use crate::page::{Page, Place};
use ierbulosc::{Record, State};

/// The size of letters, ten points, and of those of a script.
pub const SIZE: u32 = 500;
const SCRIPT_SIZE: u32 = 340;
/// How far their baseline lies below their row.
const BASELINE: u32 = 400;
const SUPERSCRIPT_BASELINE: u32 = 260;
const SUBSCRIPT_BASELINE: u32 = 480;
/// How much further that of a letter of double height does.
const LOWERED: u32 = 480;

/// Letters beside each other, of one style and width.
pub struct Run {
    pub place: Place,
    pub style: u16,
    /// How far one is from the next, and the width of each.
    pub advance: u32,
    pub own: u32,
    pub text: String,
    /// The letters of the text.
    pub count: u32,
}

impl Run {
    /// The size of the letters, and how far their baseline lies below their row.
    pub fn hanging(&self) -> (u32, u32) {
        let (size, baseline) = if self.style & SUPERSCRIPT != 0 {
            (SCRIPT_SIZE, SUPERSCRIPT_BASELINE)
        } else if self.style & SUBSCRIPT != 0 {
            (SCRIPT_SIZE, SUBSCRIPT_BASELINE)
        } else {
            (SIZE, BASELINE)
        };
        match self.style & DOUBLE_HEIGHT {
            0 => (size, baseline),
            _ => (2 * size, baseline + LOWERED),
        }
    }

    pub fn is_tall(&self) -> bool {
        self.style & DOUBLE_HEIGHT != 0
    }

    pub fn is_underlined(&self) -> bool {
        self.style & UNDERLINE != 0
    }

    /// Whether a letter goes on with the run: it touches, and at most one blank is
    /// before it.
    fn takes(&self, next: &Run) -> bool {
        let end = self.place.across + self.count * self.advance;
        let same = (self.style, self.advance, self.own, self.place.down)
            == (next.style, next.advance, next.own, next.place.down);
        let blanks = self.text.ends_with(' ') && next.text == " ";
        same && end == next.place.across && (self.is_underlined() || !blanks)
    }

    /// Takes blanks at the end away, unless they show.
    fn trim(&mut self) {
        while self.text.ends_with(' ') && !self.is_underlined() {
            self.text.pop();
            self.count -= 1;
        }
    }
}

/// The runs of a page, as its letters came.
pub fn runs(page: &Page, state: &State) -> Vec<Run> {
    let mut runs: Vec<Run> = Vec::new();
    let letters = page.letters.records().zip(&page.letters.places);
    for (record, &place) in letters {
        let Some(letter) = run_of(record, place, state) else {
            continue;
        };
        match runs.last_mut() {
            Some(run) if run.takes(&letter) => {
                run.text += &letter.text;
                run.count += 1;
            }
            // Blanks that do not show begin no run.
            _ if letter.text == " " && !letter.is_underlined() => {}
            _ => runs.push(letter),
        }
    }
    runs.iter_mut().for_each(Run::trim);
    runs
}

/// The run of a single letter.
fn run_of(record: Record, place: Place, state: &State) -> Option<Run> {
    let Record::Tx {
        byte,
        style,
        country,
        advance,
        ..
    } = record
    else {
        return None;
    };
    let (sign, style) = character(byte, style, country, state.dots_across);
    let sign = if is_blank(sign) { ' ' } else { sign };
    let times = if style & DOUBLE_WIDTH != 0 { 2 } else { 1 };
    Some(Run {
        place,
        style,
        advance: advance.into(),
        own: u32::from(advance)
            .saturating_sub(times * place.space)
            .max(1),
        text: sign.to_string(),
        count: 1,
    })
}
