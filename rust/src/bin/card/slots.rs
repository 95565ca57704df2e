//! What stands in each slot of a card now, by the library's question.

use crate::layout::Layout;
use crate::line::{inked, letters, shown, Letter};
use crate::options::{Named, Slots};
use crate::page::Page;
use ierbulosc::{records, slot, Record, State, RECORD_SIZE};
use std::fmt::Write;

/// Half the height of a letter in units.
const HALF_A_LETTER: u32 = 240;

/// What is said where the slots named are not those of the card.
pub const OUT_OF_STEP: &str = "the card is out of step with --slots; --slot-stops goes by its tab \
                               stops, 10,20@12 names columns of 12 to the inch, 0.833in or 3000u a place";

/// What stands in a slot now, and what is to be said of it.
pub struct Answer {
    pub text: Option<String>,
    pub notes: Vec<&'static str>,
}

/// What stands in all slots.
pub struct Answers {
    pub slots: Vec<Answer>,
    /// Whether each text begins where its slot does, as far as can be seen.
    pub in_step: bool,
}

/// Appends a line for each slot. The driver counts slots from 1, the electricians
/// from 0.
pub fn draw(answers: &Answers, text: &mut String) {
    if answers.slots.is_empty() {
        text.push_str("no tab stop is in force, so there are no slots\n");
    }
    for (number, answer) in answers.slots.iter().enumerate() {
        let standing = answer.text.as_deref().unwrap_or("(nothing)");
        let driver = number + 1;
        // Writing to a string does not fail.
        let _ = write!(text, "slot {driver} (electricians: {number})  {standing}");
        if !answer.notes.is_empty() {
            let _ = write!(text, " ({})", answer.notes.join(", "));
        }
        text.push('\n');
    }
}

/// What stands in each slot.
pub fn answers(page: &Page, state: &State, slots: &Slots) -> Answers {
    let card = Card::new(page, state, slots);
    let texts: Vec<Option<Text>> = (0..card.places.len()).map(|slot| card.text(slot)).collect();
    let mut found = texts.iter().flatten().peekable();
    let fits = match found.peek() {
        Some(_) => found.all(|text| card.is_fitting(text)),
        None => card.fits(&Layout::of(state), state.column_width),
    };
    let at_begins = texts.iter().flatten().all(|text| !text.is_late);
    let answer = |text: Option<Text>| card.answer(text, fits);
    Answers {
        slots: texts.into_iter().map(answer).collect(),
        in_step: *slots == Slots::Stops || fits && at_begins,
    }
}

/// The dot column of a place across.
fn dot(units: u32, state: &State) -> u16 {
    let dot = ierbulosc::dot(units, state.dots_across);
    u16::try_from(dot).unwrap_or(u16::MAX)
}

/// A card, and where its slots begin.
struct Card<'a> {
    page: &'a Page,
    state: &'a State,
    slots: &'a Slots,
    /// In units and in dot columns.
    places: Vec<u32>,
    begins: Vec<u16>,
    /// The dots to the right of these that are still a slot's begin: a place in
    /// inches may be a dot off, so its slot begins a dot before it.
    tolerance: u16,
}

/// What the newest line has in a slot.
struct Text {
    words: String,
    /// The letters within the slot's columns.
    letters: Vec<Letter>,
    /// Whether it begins in the slot, but not at its first column.
    is_late: bool,
    /// What else is to be said of it.
    notes: Vec<&'static str>,
}

impl<'a> Card<'a> {
    fn new(page: &'a Page, state: &'a State, slots: &'a Slots) -> Card<'a> {
        let (places, tolerance) = match slots {
            Slots::Places { units, named } => {
                (units.clone(), 2 * u16::from(*named == Named::Inches))
            }
            Slots::Stops => {
                let layout = Layout::of(state);
                let stops = layout.places(state.column_width);
                (stops.filter(|&place| place < state.right).collect(), 0)
            }
        };
        Card {
            page,
            state,
            slots,
            begins: places
                .iter()
                .map(|&place| dot(place, state).saturating_sub(tolerance / 2))
                .collect(),
            places,
            tolerance,
        }
    }

    /// Dots to the inch.
    fn dots(&self) -> u32 {
        self.state.dots_across
    }

    /// What stands in a slot now: what the newest line there has.
    fn text(&self, slot: usize) -> Option<Text> {
        let from = self.begins[slot];
        let paper = dot(self.state.paper_width, self.state);
        let end = self.begins.get(slot + 1).copied().unwrap_or(paper);
        let row = newest_row(self.page.letters.bytes(), from, end.saturating_sub(1))?;
        let line = self.line(row);
        let inked = inked(&line);
        let first = inked.partition_point(|letter| letter.last < from);
        let past = inked.partition_point(|letter| letter.column < end);
        if first >= past {
            return None;
        }
        let parted = |place: &usize| self.is_parted(&inked, *place);
        let begin = (1..=first).rev().find(parted).unwrap_or(0);
        let last = (past..inked.len()).find(parted).unwrap_or(inked.len());
        let is_own = begin == first;
        let text = &inked[begin..last];
        let mut notes = told(&[
            (!is_own, "begins before the slot"),
            (
                is_own && self.is_after_label(&inked[..=first]),
                "follows other text",
            ),
            (last > past, "runs past the slot"),
        ]);
        let is_last = last == inked.len();
        notes.extend(self.doubts(slot, text, is_own, is_last.then_some(&line)));
        Some(Text {
            words: words(text, self.dots()),
            letters: inked[first..past].to_vec(),
            is_late: is_own && !self.is_at(&inked[first], from),
            notes,
        })
    }

    /// Why a text may not be whole, or not one: whether it is the slot's own, and the
    /// line if it is the last there.
    fn doubts(
        &self,
        slot: usize,
        text: &[Letter],
        is_own: bool,
        line: Option<&Vec<Letter>>,
    ) -> Vec<&'static str> {
        let has_gap = self.has_gap(text);
        told(&[
            (
                is_own && self.is_continued(&text[0]),
                "goes on from the line above",
            ),
            (
                line.is_some_and(|line| self.goes_on(slot, line, text)),
                "goes on in the line below",
            ),
            (has_gap, "has a gap"),
            (!has_gap && !is_one(text), "printed in pieces"),
            (is_struck(text), "struck over other text"),
        ])
    }

    /// What is said of a slot; the slots are those of the card, or not.
    fn answer(&self, text: Option<Text>, fits: bool) -> Answer {
        let (elsewhere, at) = match self.slots {
            Slots::Stops => ("the stops have moved since", "begins after the stop"),
            Slots::Places { .. } => ("out of step", "begins after the first column"),
        };
        let Some(mut text) = text else {
            let apart = *self.slots != Slots::Stops && !fits;
            return Answer {
                text: None,
                notes: told(&[(apart, elsewhere)]),
            };
        };
        let apart = match self.slots {
            Slots::Stops => !self.is_fitting(&text),
            Slots::Places { .. } => !fits,
        };
        let late = text.is_late && (*self.slots != Slots::Stops || !apart);
        text.notes.splice(0..0, told(&[(late, at)]));
        text.notes.extend(told(&[(apart, elsewhere)]));
        Answer {
            text: Some(text.words),
            notes: text.notes,
        }
    }

    /// Whether a text was printed while the slots were where they are said to be.
    fn is_fitting(&self, text: &Text) -> bool {
        text.letters.iter().all(|letter| {
            let layout = self.page.layouts.at(letter.order as usize * RECORD_SIZE);
            layout.is_some_and(|layout| self.fits(layout, letter.column_width.into()))
        })
    }

    /// Whether the slots are where they are said to be, for text of columns so
    /// wide: at the same tab stops as now; or, of places named, in the pitch of
    /// the columns named, and at stops, if the card has set such.
    fn fits(&self, layout: &Layout, width: u32) -> bool {
        match self.slots {
            Slots::Stops => *layout == Layout::of(self.state) && width == self.state.column_width,
            Slots::Places { named, .. } => {
                let stops: Vec<u16> = layout.places(width).map(|at| dot(at, self.state)).collect();
                let is_stop = |begin: u16| {
                    let begin = begin..=begin + self.tolerance;
                    stops.iter().any(|stop| begin.contains(stop))
                };
                let right = dot(layout.right, self.state);
                let mut within = self.begins.iter().filter(|&&begin| begin < right);
                let in_pitch = !matches!(named, Named::Columns(column) if *column != width);
                in_pitch && (!layout.is_set() || within.all(|&begin| is_stop(begin)))
            }
        }
    }

    /// The letters of a row as they show, from the left, with those of rows that
    /// are too close to each other to be another line.
    fn line(&self, row: u16) -> Vec<Letter> {
        let close = |one: &Letter, next: &Letter| {
            u32::from(next.row.abs_diff(one.row)) * 3_600 < HALF_A_LETTER * self.state.dots_down
        };
        // No command goes up on a page, so letters come in the order of their rows.
        let all: Vec<Letter> = letters(self.page, self.dots()).collect();
        let mut lines = all.chunk_by(close);
        let of_row = |line: &&[Letter]| line.iter().any(|letter| letter.row == row);
        let mut line = lines.find(of_row).unwrap_or_default().to_vec();
        line.sort_by_key(|letter| letter.column);
        shown(&line, self.dots())
    }

    /// Whether the last of these letters comes one blank after others that stand
    /// before all slots.
    fn is_after_label(&self, inked: &[Letter]) -> bool {
        match inked {
            [.., before, letter] => {
                before.column < self.begins[0] && !letter.is_far(before, self.dots())
            }
            _ => false,
        }
    }

    /// Whether another text begins with this letter, which is not the first one:
    /// behind a gap wider than a blank, or, with no blank printed before it, where
    /// a slot does, unless text from within another slot goes on there.
    fn is_parted(&self, inked: &[Letter], place: usize) -> bool {
        let (before, letter) = (&inked[place - 1], &inked[place]);
        letter.is_far(before, self.dots())
            || letter.is_set_apart(before, self.dots())
                && self.is_begin(letter)
                && self.is_apart(&inked[..place])
    }

    /// Whether the text at the end of these letters is a slot's own, or stands
    /// before all slots.
    fn is_apart(&self, inked: &[Letter]) -> bool {
        let own = |letter: &Letter| self.is_begin(letter) || letter.column < self.begins[0];
        for pair in inked.windows(2).rev() {
            let (before, letter) = (&pair[0], &pair[1]);
            if letter.begins_word(before, self.dots()) && own(letter) {
                return true;
            }
            if letter.is_far(before, self.dots()) {
                return false;
            }
        }
        inked.first().is_some_and(own)
    }

    /// Whether a letter stands at a column.
    fn is_at(&self, letter: &Letter, column: u16) -> bool {
        letter.column <= column + self.tolerance && column <= letter.last
    }

    /// Whether a letter stands where a slot begins.
    fn is_begin(&self, letter: &Letter) -> bool {
        self.begins.iter().any(|&begin| self.is_at(letter, begin))
    }

    /// Whether parts of a text are apart otherwise than by a printed blank, or
    /// letters of a word are not evenly apart: they may not belong together.
    fn has_gap(&self, text: &[Letter]) -> bool {
        let apart = |pair: &[Letter]| {
            pair[1].is_far(&pair[0], self.dots()) || pair[1].is_set_apart(&pair[0], self.dots())
        };
        let mut words = text.chunk_by(|one, next| !next.begins_word(one, self.dots()));
        text.windows(2).any(apart) || words.any(|word| !is_even(word, self.dots()))
    }

    /// The letter at this place among those that came, if there is one.
    fn letter(&self, order: u32) -> Option<Letter> {
        let rest = self
            .page
            .letters
            .bytes()
            .get(order as usize * RECORD_SIZE..)?;
        Letter::of(order, records(rest).next()?, self.dots())
    }

    /// Whether the text of a slot, in this line, may go on in the next one: behind
    /// it, and perhaps a blank, is no room for another letter.
    fn goes_on(&self, slot: usize, line: &[Letter], text: &[Letter]) -> bool {
        let (first, last) = (&text[0], &text[text.len() - 1]);
        let blank = self.letter(last.order + 1);
        let blank = blank.filter(|letter| letter.is_blank() && letter.column > last.column);
        let last = blank.as_ref().unwrap_or(last);
        let before = |letter: &&Letter| (first.column..last.column).contains(&letter.column);
        let widths = line
            .iter()
            .filter(before)
            .map(|letter| u32::from(letter.advance));
        // Its exact place, if the text begins at the slot's and its letters touch.
        let place = self.places[slot] + widths.sum::<u32>();
        let exact = dot(place, self.state) == last.column;
        self.is_full(last, if exact { place } else { self.most(last) })
    }

    /// Whether a text that begins with this letter may go on from the line above:
    /// the letter that came before it, but for a blank, is at the right margin.
    fn is_continued(&self, first: &Letter) -> bool {
        let before = |back: u32| self.letter(first.order.checked_sub(back)?);
        let is_blank = |back: u32| before(back).is_some_and(|letter| letter.is_blank());
        let is_last = |back: u32| {
            let last = before(back).filter(|last| last.column >= first.column);
            last.is_some_and(|last| self.is_full(&last, self.most(&last)))
        };
        let behind_blank = is_blank(1) && is_last(2);
        (is_last(1) || behind_blank) && !(is_blank(1) && is_blank(2))
    }

    /// The last place in units that a letter may have by its column.
    fn most(&self, letter: &Letter) -> u32 {
        (u32::from(letter.column) * 3_600 + 1_799) / self.dots()
    }

    /// Whether behind this letter, which is at this place, is no room for another
    /// one, or for the next that came.
    fn is_full(&self, last: &Letter, place: u32) -> bool {
        let next = self.letter(last.order + 1);
        let next = next.filter(|next| next.column <= last.column);
        let wide = next.map_or(0, |next| next.advance).max(last.advance);
        let end = place + u32::from(last.advance) + u32::from(wide);
        let layout = self.page.layouts.at(last.order as usize * RECORD_SIZE);
        layout.is_none_or(|layout| end > layout.right)
    }
}

/// The notes of which it holds that they are told.
fn told(notes: &[(bool, &'static str)]) -> Vec<&'static str> {
    let told = notes.iter().filter(|(told, _)| *told);
    told.map(|(_, note)| *note).collect()
}

/// Whether letters of a text are struck over others, or some of them, and not
/// all, over the same: a longer text may be below.
fn is_struck(text: &[Letter]) -> bool {
    let again = text[0].again;
    text.iter()
        .any(|letter| letter.struck || letter.again != again)
}

/// Whether the letters of a text were printed one after the other, in one row.
fn is_one(text: &[Letter]) -> bool {
    text.windows(2).all(|pair| {
        let (before, letter) = (&pair[0], &pair[1]);
        let next = before.order + 1..=before.order + 2;
        letter.row == before.row && next.contains(&letter.order)
    })
}

/// Whether the letters of a word are evenly apart, but for dots that rounding may
/// give; two letters must touch.
fn is_even(word: &[Letter], across: u32) -> bool {
    let gaps = word.windows(2).map(|pair| pair[1].gap(&pair[0], across));
    let none = (word.len() == 2).then_some(0);
    let (least, most) = gaps
        .chain(none)
        .fold((i64::MAX, i64::MIN), |(least, most), gap| {
            (least.min(gap), most.max(gap))
        });
    most.saturating_sub(least) < 3 * 3_600
}

/// The row of the newest letter from one column to another.
fn newest_row(list: &[u8], from: u16, to: u16) -> Option<u16> {
    match records(slot(list, from, to).1).next() {
        Some(Record::Tx { row, .. }) => Some(row),
        _ => None,
    }
}

/// Letters as text, with a space between words.
fn words(letters: &[Letter], across: u32) -> String {
    let mut text = String::new();
    for (place, letter) in letters.iter().enumerate() {
        if place > 0 && letter.begins_word(&letters[place - 1], across) {
            text.push(' ');
        }
        text.push(letter.sign);
    }
    text
}
