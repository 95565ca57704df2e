//! What stands on a page.

use crate::layout::{Layout, Layouts};
use ierbulosc::{records, Records, NEW_TOP, RECORD_SIZE};
use std::collections::HashMap;

/// The bytes of a row's records up to which nothing is looked for that could be
/// let go: more than a line has that is written a few times, or of images once.
const MANY_LETTERS: usize = 1_170 * RECORD_SIZE;
const MANY_IMAGES: usize = 9_362 * RECORD_SIZE;
/// A letter's font, which nothing shows, among the bytes of its record.
const FONT: usize = 7;

/// An exact place on the page, in units, and the space behind a letter, which is
/// doubled with its width.
#[derive(Clone, Copy)]
pub struct Place {
    pub across: u32,
    pub down: u32,
    pub space: u32,
}

/// Records of one kind that stand on a page, as they came. What a CL has voided
/// is gone.
pub struct List {
    bytes: Vec<u8>,
    /// The places of all, or of none where they are not asked for.
    pub places: Vec<Place>,
    /// As many bytes are there for good: a CL voids what comes after them.
    line: usize,
    /// As many bytes are of the rows above the present one. No command goes up on
    /// a page, so nothing comes to these any more.
    above: usize,
    /// Where the bytes of the row grow beyond both, they are thinned.
    many: usize,
    limit: usize,
}

impl List {
    fn new(many: usize) -> List {
        List {
            bytes: Vec::new(),
            places: Vec::new(),
            line: 0,
            above: 0,
            many,
            limit: 0,
        }
    }

    pub fn bytes(&self) -> &[u8] {
        &self.bytes
    }

    pub fn records(&self) -> Records<'_> {
        records(&self.bytes)
    }

    /// Adds a record; whether the row's have been thinned.
    fn add(&mut self, record: &[u8], place: Option<Place>) -> bool {
        self.bytes.extend_from_slice(record);
        self.places.extend(place);
        let grown = self.bytes.len() - self.above > self.limit.max(self.many);
        if grown {
            self.thin();
        }
        grown
    }

    /// A line is fed, perhaps to another row.
    fn feed(&mut self, to_other_row: bool) {
        self.line = self.bytes.len();
        if to_other_row {
            (self.above, self.limit) = (self.line, 0);
        }
    }

    fn void(&mut self) {
        self.bytes.truncate(self.line);
        self.places.truncate(self.line / RECORD_SIZE);
    }

    /// Lets go of records of the row that later ones repeat, as where a line is
    /// written over itself without end: they show nothing more.
    #[cold]
    fn thin(&mut self) {
        let good = newest_of_each(&self.bytes, self.above..self.line);
        let open = newest_of_each(&self.bytes, self.line..self.bytes.len());
        let record = |at: &usize| self.bytes[*at..*at + RECORD_SIZE].to_vec();
        let kept: Vec<u8> = good.iter().chain(&open).flat_map(record).collect();
        let place = |at: &usize| self.places.get(at / RECORD_SIZE).copied();
        let places: Vec<Place> = good.iter().chain(&open).filter_map(place).collect();
        self.bytes.truncate(self.above);
        self.bytes.extend(kept);
        self.places.truncate(self.above / RECORD_SIZE);
        self.places.extend(places);
        self.line = self.above + good.len() * RECORD_SIZE;
        self.limit = 2 * (self.bytes.len() - self.above);
    }

    fn clear(&mut self) {
        self.bytes.clear();
        self.places.clear();
        (self.line, self.above, self.limit) = (0, 0, 0);
    }
}

/// What stands on a page.
pub struct Page {
    /// For the question what stands under a slot: no other records bear on it.
    pub letters: List,
    pub images: List,
    /// The margins and stops that the letters were printed in, if asked for.
    pub layouts: Layouts,
    /// Its number, counted from 1; empty sheets count too.
    pub number: u64,
    /// The present row.
    row: [u8; 2],
}

impl Page {
    /// An empty page of this number, with these margins and stops in force.
    pub fn new(number: u64, layout: Layout) -> Page {
        Page {
            letters: List::new(MANY_LETTERS),
            images: List::new(MANY_IMAGES),
            layouts: Layouts::new(layout),
            number,
            row: [0; 2],
        }
    }

    pub fn is_empty(&self) -> bool {
        self.letters.bytes.is_empty() && self.images.bytes.is_empty()
    }

    /// Takes a record's bytes, with its place if that is asked for; if the page ends
    /// with it, how many pages are turned. A new top is another page, unless
    /// nothing stands on this one.
    pub fn take(&mut self, record: &[u8], place: Option<Place>) -> Option<u64> {
        match *record {
            [b'T', b'X', ..] => self.add(record, place),
            [b'I', b'M', ..] => {
                self.images.add(record, place);
            }
            [b'L', b'N', _, _, low, high, pages, ..] => {
                let other = self.row != [low, high];
                self.row = [low, high];
                self.lists(|list| list.feed(other));
                return match pages {
                    0 => None,
                    NEW_TOP => Some(u64::from(!self.is_empty())),
                    _ => Some(pages.into()),
                };
            }
            [b'C', b'L', ..] => {
                self.lists(List::void);
                self.layouts.cut(self.letters.bytes.len());
            }
            _ => {}
        }
        None
    }

    /// Adds a letter.
    fn add(&mut self, record: &[u8], place: Option<Place>) {
        if self.letters.add(record, place) {
            let letters = &self.letters;
            self.layouts.thin(letters.above, letters.bytes.len());
        }
    }

    /// Another sheet, so many further on.
    pub fn turn(&mut self, pages: u64) {
        self.number += pages;
        self.lists(List::clear);
        self.layouts.cut(0);
    }

    /// The margins or the tab stops have changed.
    pub fn change_layout(&mut self, layout: Layout) {
        self.layouts.change(self.letters.bytes.len(), layout);
    }

    fn lists(&mut self, change: impl Fn(&mut List)) {
        change(&mut self.letters);
        change(&mut self.images);
    }
}

/// Where the records of a part of a list begin, without those that later ones of
/// it repeat: of each letter two are left, since one struck over itself is bold,
/// and of each image byte one.
fn newest_of_each(list: &[u8], part: std::ops::Range<usize>) -> Vec<usize> {
    let mut seen: HashMap<[u8; RECORD_SIZE], u8> = HashMap::new();
    let mut kept: Vec<usize> = Vec::new();
    for at in part.step_by(RECORD_SIZE).rev() {
        let mut record = [0; RECORD_SIZE];
        record.copy_from_slice(&list[at..at + RECORD_SIZE]);
        let letter = record.starts_with(b"TX");
        if letter {
            record[FONT] = 0;
        }
        let count = seen.entry(record).or_insert(0);
        if *count < if letter { 2 } else { 1 } {
            *count += 1;
            kept.push(at);
        }
    }
    kept.reverse();
    kept
}
