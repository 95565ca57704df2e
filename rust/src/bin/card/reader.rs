//! The reading of bytes into pages.

use crate::layout::Layout;
use crate::page::{Page, Place};
use crate::passed::Passed;
use crate::Outcome;
use ierbulosc::{Settings, State, IMAGE_DATA, RECORD_SIZE, ROOM};

/// The room for records of a reading call.
const OUTPUT: usize = 1 << 16;
/// So many bytes are read at a time where more than records is asked for: theirs
/// have room.
const PIECE: usize = 2_048;
const _: () = assert!(PIECE * ROOM <= OUTPUT);

/// The units of space that ESC SP counts in.
const SPACE: u32 = 20;

/// What is asked for of a page beside its records.
#[derive(Clone, Copy, PartialEq, Eq)]
pub enum Care {
    Nothing,
    /// The exact places of letters and image bytes, and the state right before
    /// its end.
    Places,
    /// The margins and tab stops that its letters were printed in.
    Layout,
}

/// What is done with a page that has ended: it gets the page and a state of
/// the printer before its end.
pub type Show<'a> = &'a mut dyn FnMut(&Page, &State) -> Outcome<()>;

/// Reads bytes into pages.
pub struct Reader {
    state: State,
    page: Page,
    /// The pages that have ended.
    ended: u64,
    /// The bytes that were read, and what was passed over of them.
    bytes: u64,
    passed: Passed,
    out: Vec<u8>,
    care: Care,
    /// With [`Care::Layout`]: input that was read without care.
    recent: Option<Recent>,
}

/// Input, in which the present page began, and the state before it. Of a capture
/// only the last page's layouts are asked for, and care takes time: so it is read
/// anew, with care, when these are asked for.
struct Recent {
    state: State,
    /// The number of its first page.
    number: u64,
    input: Vec<u8>,
}

/// The most bytes of it: of a longer page the rest is read with care at once.
const MOST_RECENT: usize = 1 << 20;

impl Reader {
    /// A reader with these settings, which a start takes.
    pub fn new(settings: &Settings, care: Care) -> Reader {
        let state = State::start(settings).1;
        Reader {
            state,
            page: Page::new(1, Layout::of(&state)),
            ended: 0,
            bytes: 0,
            passed: Passed::default(),
            out: vec![0; OUTPUT],
            care,
            recent: (care == Care::Layout).then(|| Recent {
                state,
                number: 1,
                input: Vec::new(),
            }),
        }
    }

    /// The state of the printer now.
    pub fn state(&self) -> &State {
        &self.state
    }

    /// What was passed over so far.
    pub fn passed(&self) -> &Passed {
        &self.passed
    }

    /// The present page.
    pub fn page(&self) -> &Page {
        &self.page
    }

    /// Reads these bytes. Each page that ends and has something on it is shown.
    pub fn read(&mut self, input: &[u8], show: Show) -> Outcome<()> {
        let (state, ended, number) = (self.state, self.ended, self.page.number);
        self.read_through(input, show)?;
        if self.care == Care::Layout && self.ended > ended {
            let mut kept = self.recent.take().map_or(Vec::new(), |recent| recent.input);
            kept.clear();
            self.recent = Some(Recent {
                state,
                number,
                input: kept,
            });
        }
        if let Some(recent) = &mut self.recent {
            recent.input.extend_from_slice(input);
            if recent.input.len() > MOST_RECENT {
                self.settle();
            }
        }
        Ok(())
    }

    /// Reads these bytes, and takes their records to no page: they are given on.
    pub fn list(
        &mut self,
        mut input: &[u8],
        give: &mut dyn FnMut(&[u8]) -> Outcome<()>,
    ) -> Outcome<()> {
        while !input.is_empty() {
            let before = self.state;
            let report = self.state.read(input, usize::MAX, &mut self.out);
            let (piece, rest) = input.split_at(report.read);
            let records = &self.out[..report.written];
            self.passed.take(records, &before, piece, self.bytes);
            self.bytes += piece.len() as u64;
            give(records)?;
            input = rest;
        }
        Ok(())
    }

    /// Makes what is asked for known of the present page.
    pub fn settle(&mut self) {
        if let Some(recent) = self.recent.take() {
            self.state = recent.state;
            self.page = Page::new(recent.number, Layout::of(&self.state));
            // Pages that ended have been shown, and what was passed over is told.
            let (bytes, passed) = (self.bytes, self.passed);
            let _ = self.read_through(&recent.input, &mut |_, _| Ok(()));
            (self.bytes, self.passed) = (bytes, passed);
        }
    }

    /// Reads these bytes, with care where it is due.
    fn read_through(&mut self, mut input: &[u8], show: Show) -> Outcome<()> {
        while !input.is_empty() {
            let before = self.state;
            let allowance = self.allowance(input);
            let report = self.state.read(input, allowance, &mut self.out);
            let mut done = report.read;
            if self.is_clear(done, report.written) {
                self.take(&input[..done], report.written, &before, show)?;
            } else {
                self.state = before;
                done = done.min(first_escape(input));
                self.read_by_bytes(&input[..done], show)?;
            }
            input = &input[done..];
        }
        Ok(())
    }

    /// Reads these bytes by a call for each.
    fn read_by_bytes(&mut self, input: &[u8], show: Show) -> Outcome<()> {
        for byte in input.chunks(1) {
            let before = self.state;
            let report = self.state.read(byte, 1, &mut self.out);
            self.take(byte, report.written, &before, show)?;
        }
        Ok(())
    }

    /// What must be known of the bytes that are read now.
    fn due(&self) -> Care {
        match self.recent {
            Some(_) => Care::Nothing,
            None => self.care,
        }
    }

    /// How many bytes are read by the next call: letters or image data, or one
    /// byte, where places are asked for; at most one escape that changes margins
    /// or stops where these are.
    fn allowance(&self, input: &[u8]) -> usize {
        let control = |byte: &u8| matches!(byte, 0..=0x1F | 0x7F..=0x9F);
        let changes = |pair: &[u8]| matches!(pair, [0x1B | 0x9B, b'D' | b'l' | b'Q' | b'@']);
        let piece = &input[..input.len().min(PIECE)];
        match self.due() {
            Care::Nothing => usize::MAX,
            Care::Places if self.state.kind == IMAGE_DATA => PIECE,
            Care::Places => piece.iter().position(control).unwrap_or(PIECE).max(1),
            Care::Layout => {
                let next = piece[1..].windows(2).position(changes);
                1 + next.unwrap_or(PIECE - 1)
            }
        }
    }

    /// Whether what is asked for can be told of a piece that was read by one
    /// call: of one byte it always can.
    fn is_clear(&self, bytes: usize, written: usize) -> bool {
        let mut records = self.out[..written].chunks_exact(RECORD_SIZE);
        bytes == 1
            || match self.due() {
                Care::Nothing => true,
                Care::Places => {
                    records.len() == bytes && records.all(|record| step(record).is_some())
                }
                Care::Layout => self.page.layouts.now().is_of(&self.state),
            }
    }

    /// Takes the records of the output's first bytes, which came of this input.
    fn take(&mut self, input: &[u8], written: usize, before: &State, show: Show) -> Outcome<()> {
        let mut passed = false;
        let records = self.out[..written].chunks_exact(RECORD_SIZE);
        let mut place = (self.care == Care::Places).then(|| Place {
            across: self.state.across - records.clone().filter_map(step).sum::<u32>(),
            down: self.state.down,
            space: SPACE * self.state.spacing,
        });
        for record in records {
            passed |= record[0] == b'N';
            if let Some(pages) = self.page.take(record, place) {
                if !self.page.is_empty() {
                    show(&self.page, before)?;
                }
                self.page.turn(pages);
                self.ended += 1;
            }
            if let Some(place) = &mut place {
                place.across += step(record).unwrap_or(0);
            }
        }
        if passed {
            let records = &self.out[..written];
            self.passed.take(records, before, input, self.bytes);
        }
        self.bytes += input.len() as u64;
        if self.due() == Care::Layout && !self.page.layouts.now().is_of(&self.state) {
            self.page.change_layout(Layout::of(&self.state));
        }
        Ok(())
    }

    /// The input has ended: shows the present page, if something is on it.
    pub fn end(&mut self, show: Show) -> Outcome<()> {
        if self.page.is_empty() {
            return Ok(());
        }
        show(&self.page, &self.state)
    }
}

/// Of bytes that begin with an escape, how many may be its own; else all. A list
/// of stops ends with a byte that is not above the one before it.
fn first_escape(input: &[u8]) -> usize {
    match input {
        [0x1B | 0x9B, b'D', list @ ..] => {
            let end = list.windows(2).position(|pair| pair[1] <= pair[0]);
            end.map_or(input.len(), |end| end + 4)
        }
        [0x1B | 0x9B, ..] => 3,
        _ => input.len(),
    }
}

/// How far a letter or an image byte moves the place across, in units; of other
/// records nothing. Of an image column the last byte does.
fn step(record: &[u8]) -> Option<u32> {
    let advance = |low, high| u32::from(u16::from_le_bytes([low, high]));
    match *record {
        [b'T', b'X', .., low, high, _, _] => Some(advance(low, high)),
        [b'I', b'M', _, _, _, _, _, 0 | 3, .., low, high, _, _] => Some(advance(low, high)),
        [b'I', b'M', ..] => Some(0),
        _ => None,
    }
}
