//! The image bytes of a page as braille cells: two dots across and four down
//! to a cell of the text.

use crate::page::Page;
use ierbulosc::{dot_below, Record, State};
use std::ops::Range;

/// A braille dot's height in units: a quarter of a sixth of an inch.
const QUARTER: u64 = 150;

/// Braille patterns, from the top row of the text on, each from the left.
pub struct Dots(Vec<Vec<u8>>);

/// The dots of an image byte down: how far below its row it begins, in units,
/// and the height of each.
pub fn down(part: u8) -> (u32, u32) {
    let top = dot_below(part, 0);
    (top, dot_below(part, 1) - top)
}

/// Where rows of the page lie in the text: by sixths of an inch from the line
/// of letters above them, but above the next one; evenly where lines of the
/// text lie further apart than on the page.
struct Places<'a> {
    /// Dot rows, and the rows of the text in which they stand.
    anchors: &'a [(u32, usize)],
    dots_down: u32,
}

impl Places<'_> {
    /// The quarter of a row of the text in which a place down is, in units
    /// times dots to the inch.
    fn quarter(&self, place: u64) -> usize {
        let sure = |at: usize| {
            let (row, text) = self.anchors[at];
            (u64::from(row) * 3_600, 4 * text as u64)
        };
        let dots = u64::from(self.dots_down);
        let after = self
            .anchors
            .partition_point(|&(row, _)| u64::from(row) * 3_600 <= place);
        let quarter = if self.anchors.is_empty() {
            place / (QUARTER * dots)
        } else if after == 0 {
            let (begin, text) = sure(0);
            text.saturating_sub((begin - place).div_ceil(QUARTER * dots))
        } else if after == self.anchors.len() {
            let (begin, text) = sure(after - 1);
            text + (place - begin) / (QUARTER * dots)
        } else {
            let ((begin, text), (end, next)) = (sure(after - 1), sure(after));
            let even = (place - begin) * (next - text) / (end - begin);
            let plain = (place - begin) / (QUARTER * dots);
            text + even.max(plain).min(next - text - 1)
        };
        quarter as usize
    }

    /// The quarters in which the dots of an image byte are, by their middles,
    /// each with the bits of those in it.
    fn of_byte(&self, row: u16, part: u8) -> Vec<(usize, u8)> {
        let (below, height) = down(part);
        let mut quarters: Vec<(usize, u8)> = Vec::new();
        for bit in 0..8 {
            let units = below + height * bit + height / 2;
            let place = u64::from(row) * 3_600 + u64::from(units * self.dots_down);
            let quarter = self.quarter(place);
            match quarters.last_mut() {
                Some((same, bits)) if *same == quarter => *bits |= 0x80 >> bit,
                _ => quarters.push((quarter, 0x80 >> bit)),
            }
        }
        quarters
    }
}

/// The quarters of one part of the columns in a row, as [`Places::of_byte`] gives
/// them: many columns share a row.
#[derive(Default)]
struct Band {
    row: Option<u16>,
    quarters: Vec<(usize, u8)>,
}

/// The braille dots across that a column of an image covers: those whose
/// middles lie in it, or the one in which its own middle is.
fn across(column: u16, advance: u16, cpi: u32, dots: u32) -> Range<usize> {
    let inch = 3_600 * u64::from(dots);
    let begin = u64::from(column) * 3_600 * 2 * u64::from(cpi);
    let wide = u64::from(advance) * u64::from(dots) * 2 * u64::from(cpi);
    let from = |place: u64| ((2 * place + inch - 1) / (2 * inch)) as usize;
    let covered = from(begin)..from(begin + wide);
    if covered.is_empty() {
        let middle = ((begin + wide / 2) / inch) as usize;
        return middle..middle + 1;
    }
    covered
}

impl Dots {
    /// The image bytes of a page, with so many cells to an inch; the anchors
    /// are its lines' dot rows, each with its row of the text.
    pub fn of(page: &Page, state: &State, cpi: u32, anchors: &[(u32, usize)]) -> Dots {
        let places = Places {
            anchors,
            dots_down: state.dots_down,
        };
        let mut dots = Dots(Vec::new());
        let mut bands: [Band; 4] = Default::default();
        let (mut place, mut columns) = (None, 0..0);
        for record in page.images.records() {
            let Record::Im {
                column,
                row,
                byte,
                part,
                advance,
                ..
            } = record
            else {
                continue;
            };
            let band = &mut bands[usize::from(part % 4)];
            if band.row != Some(row) {
                band.row = Some(row);
                band.quarters = places.of_byte(row, part);
            }
            // The bytes of a column share its place.
            if place != Some((column, advance)) {
                place = Some((column, advance));
                columns = across(column, advance, cpi, state.dots_across);
            }
            let black = |&&(_, bits): &&(usize, u8)| byte & bits != 0;
            for &(quarter, _) in band.quarters.iter().filter(black) {
                dots.set(columns.clone(), quarter);
            }
        }
        dots
    }

    /// Sets braille dots beside each other.
    fn set(&mut self, columns: Range<usize>, quarter: usize) {
        const BITS: [[u8; 2]; 4] = [[0x01, 0x08], [0x02, 0x10], [0x04, 0x20], [0x40, 0x80]];
        let row = quarter / 4;
        if self.0.len() <= row {
            self.0.resize(row + 1, Vec::new());
        }
        let cells = &mut self.0[row];
        if cells.len() < columns.end.div_ceil(2) {
            cells.resize(columns.end.div_ceil(2), 0);
        }
        for column in columns {
            cells[column / 2] |= BITS[quarter % 4][column % 2];
        }
    }

    /// The rows of the text down to the last dot.
    pub fn rows(&self) -> usize {
        self.0.len()
    }

    /// Gives each cell of a row of the text that has dots, with its sign.
    pub fn fill(&self, row: usize, mut set: impl FnMut(usize, char)) {
        let cells = self.0.get(row).map_or(&[][..], |cells| &cells[..]);
        let dotted = cells.iter().enumerate().filter(|(_, &bits)| bits != 0);
        for (cell, &bits) in dotted {
            let sign = char::from_u32(0x2800 + u32::from(bits));
            set(cell, sign.unwrap_or(' '));
        }
    }
}
