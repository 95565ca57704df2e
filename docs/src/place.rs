//! Letters, feeds, tabs and moves: what sets and moves the place.

use crate::reading::Reading;
use crate::records::{Reason, Record, NEW_TOP};
use crate::state::{Rounded, State, LONGEST_PAGE, SHORTEST_PAGE};

impl Reading<'_> {
    /// A letter: placed, placed after an automatic line, or passed over.
    #[inline(always)]
    pub fn letter(&mut self, letter: u8) {
        if self.fits(self.advance) {
            self.place_letter(letter);
        } else {
            self.letter_past_the_margin(letter);
        }
    }

    #[inline(never)]
    fn letter_past_the_margin(&mut self, letter: u8) {
        if self.state.across != self.state.left {
            self.line_feed();
        }
        if self.fits(self.advance) {
            self.place_letter(letter);
        } else {
            self.records.passed_over(letter, Reason::DoesNotFit);
        }
    }

    #[inline(always)]
    fn place_letter(&mut self, letter: u8) {
        let record = self.letter_record(self.state.column(), letter);
        self.records.put(&record);
        self.state.across += self.advance;
    }

    /// Whether so much more fits on the line.
    pub fn fits(&self, units: u32) -> bool {
        self.state.across + units <= self.state.right
    }

    /// TX on the present row, in this column.
    pub fn letter_record(&self, column: Rounded, letter: u8) -> Record {
        Record {
            mark: *b"TX",
            column: column.dot,
            row: self.row,
            byte: letter,
            font: self.state.font,
            style: self.style,
            country: self.state.country,
            advance: self.advance as u16,
            rest: column.rest,
        }
    }

    /// CR, with the LF of an automatic line feed.
    pub fn carriage_return(&mut self) {
        self.state.across = self.state.left;
        if self.state.automatic_line_feed {
            self.line_feed();
        }
    }

    /// Ends SO.
    pub fn end_shift_out(&mut self) {
        if self.state.shift_out {
            self.set_width(|state| state.shift_out = false);
        }
    }

    /// LF: one line down, or to the next page's top.
    pub fn line_feed(&mut self) {
        self.end_shift_out();
        self.state.across = self.state.left;
        let down = self.state.down + self.state.line_amount;
        let turned = down >= self.state.edge();
        self.go_down(if turned { 0 } else { down });
        self.records.line(self.row, u8::from(turned));
    }

    /// FF: to the next page's top.
    pub fn form_feed(&mut self) {
        self.end_shift_out();
        self.state.across = self.state.left;
        self.go_down(0);
        self.records.line(0, 1);
    }

    /// ESC J: down by n/180 inch, over page ends.
    pub fn feed(&mut self, n: u8) {
        let sum = self.state.down + 20 * u32::from(n);
        let edge = self.state.edge();
        let pages = if sum < edge { 0 } else { sum / edge };
        self.go_down(sum - pages * edge);
        self.records.line(self.row, pages as u8);
    }

    /// VT: to the next vertical stop of the chosen channel.
    pub fn vertical_tab(&mut self) {
        self.end_shift_out();
        let Some(stops) = self.state.vertical_stops() else {
            return self.line_feed();
        };
        if stops.is_empty() {
            return self.carriage_return();
        }
        match stops.iter().find(|&&stop| stop > self.state.down) {
            Some(&stop) if stop < self.state.edge() => {
                self.state.across = self.state.left;
                self.go_down(stop);
                self.records.line(self.row, 0);
            }
            _ => self.form_feed(),
        }
    }

    /// HT: to the next horizontal stop, at the present column width.
    pub fn horizontal_tab(&mut self) -> Result<(), Reason> {
        let (left, width) = (self.state.left, self.column_width);
        let places = self.state.horizontal.list().iter();
        let next = places
            .map(|column| left + column * width)
            .find(|&place| place > self.state.across)
            .filter(|&place| place <= self.state.right);
        self.state.across = next.ok_or(Reason::NoStop)?;
        Ok(())
    }

    /// BS and ESC \: a move from the place across.
    pub fn move_across(&mut self, units: i32) -> Result<(), Reason> {
        match self.state.across.checked_add_signed(units) {
            Some(place) => self.go_across(place),
            None => Err(Reason::PastLimits),
        }
    }

    /// Goes to a place across, which must be between the margins.
    pub fn go_across(&mut self, place: u32) -> Result<(), Reason> {
        if !(self.state.left..=self.state.right).contains(&place) {
            return Err(Reason::PastLimits);
        }
        self.state.across = place;
        Ok(())
    }

    /// ESC l and ESC Q: new margins, if the bounds hold.
    pub fn set_margins(&mut self, left: u32, right: u32) -> Result<(), Reason> {
        if left >= right || right > self.state.paper_width {
            return Err(Reason::PastLimits);
        }
        self.state.left = left;
        self.state.right = right;
        self.state.across = left;
        self.records.clear();
        Ok(())
    }

    /// ESC C: a new page length, at whose top the paper stands.
    pub fn set_page_length(&mut self, length: u32) -> Result<(), Reason> {
        if !(SHORTEST_PAGE..=LONGEST_PAGE).contains(&length) {
            return Err(Reason::PastLimits);
        }
        self.state.page_length = length;
        self.state.skip = 0;
        self.go_down(0);
        self.records.line(0, NEW_TOP);
        Ok(())
    }

    /// ESC N: the skip at the page's end.
    pub fn set_skip(&mut self, skip: u32) -> Result<(), Reason> {
        match self.state.page_length.checked_sub(skip) {
            Some(edge) if edge >= SHORTEST_PAGE && self.state.down < edge => self.state.skip = skip,
            _ => return Err(Reason::PastLimits),
        }
        Ok(())
    }

    /// ESC @: as at power-on, keeping resolution, automatic line feed and the
    /// paper's width.
    pub fn initialize(&mut self) {
        self.set_width(|state| {
            let (resolution, feed) = (state.resolution, state.automatic_line_feed);
            *state = State::power_on(resolution, feed, state.paper_width);
        });
        self.go_down(0);
        self.records.line(0, NEW_TOP);
    }
}
