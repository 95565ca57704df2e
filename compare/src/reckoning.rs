//! The reckoning of exact places: for each letter and image byte printed, its
//! place as what the last setting command set plus the moves done since.
//!
//! It is fed the calls in order: a start's settings; of a reading call the
//! input and the count of bytes read. The plain reader is run over the same
//! bytes, one at a time, on a state kept for that alone. Of its state nothing
//! is looked at, and of the records it writes only
//! - whether there is a NO: the command, stop, letter or image byte is passed
//!   over;
//! - whether there is a TX or IM: the letter or image byte is placed;
//! - whether there is an LN, and its byte: an automatic line falls before a
//!   letter, VT goes to a stop or feeds a page, how many pages turn.
//!
//! Which stop HT or VT takes is found from the lists and places kept here; how
//! far an image column goes, how many bytes it has and which of them comes, from
//! the bytes received.

use crate::calls::{self, Call};
use crate::received::{Column, Received, Receiving};
use crate::record::{self, number, Record, ADVANCE, BYTE, COLUMN, COUNTRY, FONT};
use crate::record::{RECORD_SIZE, REST, ROOM, ROW, STYLE};
use crate::settings::Settings;
use plain_reader::State;

/// A letter or image byte that the rules print.
#[derive(Clone, Copy, PartialEq, Eq, Debug)]
pub struct Printed {
    /// The TX or IM record that is due.
    pub record: Record,
    /// The exact place, in units.
    pub across: i64,
    pub down: i64,
    /// Whether left <= across, and across + advance <= right.
    pub inside: bool,
    /// The dots to the inch across.
    pub dots: i64,
}

impl Printed {
    /// Whether this record is the one that is due: it stands within the
    /// margins, and its dot column and rest together give the exact place back.
    pub fn is(&self, came: &Record) -> bool {
        self.inside && self.record == *came && self.across_of(came) == Some(self.across)
    }

    /// The exact place across that a record's dot column and rest give, if they
    /// give one: a rest is less than half a dot, or half a dot to the left.
    fn across_of(&self, came: &Record) -> Option<i64> {
        let rest = number(came, REST) as i16;
        let parts = 3_600 * i64::from(number(came, COLUMN)) + i64::from(rest);
        let whole = (-1_800..1_800).contains(&rest) && parts % self.dots == 0;
        whole.then_some(parts / self.dots)
    }
}

/// An exact place: what was set last, and the moves since.
#[derive(Clone, Copy, Debug, Default)]
struct Exact {
    set: i64,
    moves: i64,
}

impl Exact {
    fn at(self) -> i64 {
        self.set + self.moves
    }

    fn set(&mut self, place: i64) {
        *self = Exact {
            set: place,
            moves: 0,
        };
    }
}

/// What the rules' step over one byte tells.
#[derive(Default)]
struct Learnt {
    passed_over: bool,
    placed: bool,
    pages: Option<u8>,
}

pub struct Reckoning {
    steps: State,
    receiving: Receiving,
    settings: Settings,
    across: Exact,
    down: Exact,
    pub printed: Vec<Printed>,
}

impl Reckoning {
    /// Before any call: as after a refused start.
    pub fn new() -> Reckoning {
        Reckoning {
            steps: calls::start(&calls::REFUSED).1,
            receiving: Receiving::Fresh,
            settings: Settings::of_start(&calls::REFUSED),
            across: Exact::default(),
            down: Exact::default(),
            printed: Vec::new(),
        }
    }

    /// A start, accepted or refused, begins anew; what is printed stays.
    pub fn start(&mut self, settings: &ierbulosc::Settings) {
        self.steps = calls::start(settings).1;
        self.receiving = Receiving::Fresh;
        self.settings = Settings::of_start(settings);
        self.across = Exact::default();
        self.down = Exact::default();
    }

    /// A reading call that read so many of its first bytes.
    pub fn read(&mut self, input: &[u8], read: usize) {
        for &byte in &input[..read] {
            let learnt = self.step(byte);
            let received = self.receiving.take(byte, self.settings.upper_codes_print);
            if let Some(received) = received {
                self.reckon(&received, &learnt);
            }
        }
    }

    /// A call, and how many bytes its answer says were read.
    pub fn call(&mut self, call: &Call, read: usize) {
        match call {
            Call::Start(settings) => self.start(settings),
            Call::Read { input, .. } => self.read(input, read),
        }
    }

    fn step(&mut self, byte: u8) -> Learnt {
        let mut out = [0; ROOM];
        let report = plain_reader::read(&mut self.steps, &[byte], 1, &mut out);
        assert_eq!(report.read, 1, "the plain reader refuses its own state");
        let mut learnt = Learnt::default();
        for record in out[..report.written].chunks_exact(RECORD_SIZE) {
            match &record[..2] {
                b"NO" => learnt.passed_over = true,
                b"LN" => learnt.pages = Some(record[BYTE]),
                b"TX" | b"IM" => learnt.placed = true,
                _ => {}
            }
        }
        learnt
    }

    fn reckon(&mut self, received: &Received, learnt: &Learnt) {
        match *received {
            Received::Letter(letter) => return self.letter(letter, learnt),
            Received::ImageByte(column, nth, byte) => {
                return self.image_byte(column, nth, byte, learnt)
            }
            _ => {}
        }
        if learnt.passed_over {
            return;
        }
        match received {
            Received::Control(code) => self.control(*code, learnt),
            Received::Escape(second, arguments) => self.escape(*second, arguments, learnt),
            Received::Stop(list, byte) => self.settings.stop(*list, *byte),
            Received::EndOfList(list) => self.settings.end_of_list(*list),
            Received::Letter(_) | Received::ImageByte(..) => {}
        }
    }

    /// A letter: after its automatic line, if any; placed, then moved past.
    fn letter(&mut self, letter: u8, learnt: &Learnt) {
        if learnt.pages.is_some() {
            self.line_feed(learnt);
        }
        if !learnt.placed {
            return;
        }
        let advance = self.settings.advance();
        let mut record = self.print(*b"TX", letter, advance);
        record[FONT] = self.settings.font;
        record::set(&mut record, STYLE, self.settings.style());
        record[COUNTRY] = self.settings.country;
        self.add(record, advance);
        self.across.moves += advance;
    }

    /// A byte of a column: placed where the column begins, and after the last
    /// one moved past.
    fn image_byte(&mut self, column: Column, nth: u8, byte: u8, learnt: &Learnt) {
        if !learnt.placed {
            return;
        }
        let mut record = self.print(*b"IM", byte, column.units);
        if column.bytes > 1 {
            record[FONT] = nth;
        }
        self.add(record, column.units);
        if nth == column.bytes {
            self.across.moves += column.units;
        }
    }

    /// A record at the exact place: mark, column, row, byte, advance and rest.
    fn print(&self, mark: [u8; 2], byte: u8, advance: i64) -> Record {
        let (column, rest) = record::rounded(self.across.at(), self.settings.dots.0);
        let (row, _) = record::rounded(self.down.at(), self.settings.dots.1);
        let mut record = record::marked(mark);
        record::set(&mut record, COLUMN, column);
        record::set(&mut record, ROW, row);
        record[BYTE] = byte;
        record::set(&mut record, ADVANCE, advance as u16);
        record::set(&mut record, REST, rest as u16);
        record
    }

    fn add(&mut self, record: Record, advance: i64) {
        let across = self.across.at();
        self.printed.push(Printed {
            record,
            across,
            down: self.down.at(),
            inside: self.settings.left <= across && across + advance <= self.settings.right,
            dots: self.settings.dots.0,
        });
    }

    /// LF: a line more, or a new page's top.
    fn line_feed(&mut self, learnt: &Learnt) {
        self.settings.so = false;
        self.across.set(self.settings.left);
        match learnt.pages {
            Some(1) => self.down.set(0),
            _ => self.down.moves += self.settings.line,
        }
    }

    fn carriage_return(&mut self, learnt: &Learnt) {
        self.across.set(self.settings.left);
        if self.settings.auto_feed {
            self.line_feed(learnt);
        }
    }

    fn form_feed(&mut self) {
        self.settings.so = false;
        self.across.set(self.settings.left);
        self.down.set(0);
    }

    fn control(&mut self, code: u8, learnt: &Learnt) {
        match code {
            8 => self.across.moves -= self.settings.advance(),
            9 => self.horizontal_tab(),
            10 => self.line_feed(learnt),
            11 => self.vertical_tab(learnt),
            12 => self.form_feed(),
            13 => self.carriage_return(learnt),
            _ => self.settings.control(code),
        }
    }

    /// HT, done: to the first stop right of the place.
    fn horizontal_tab(&mut self) {
        let (left, width) = (self.settings.left, self.settings.column_width());
        let here = self.across.at();
        let mut stops = self.settings.columns.iter();
        if let Some(stop) = stops.find(|&column| left + column * width > here) {
            self.across.set(left + stop * width);
        }
    }

    /// VT: an LF, a CR, a feed to the first stop below the place, or an FF.
    fn vertical_tab(&mut self, learnt: &Learnt) {
        self.settings.so = false;
        let here = self.down.at();
        let Some(rows) = self.settings.rows() else {
            return self.line_feed(learnt);
        };
        if rows.is_empty() {
            return self.carriage_return(learnt);
        }
        match rows.iter().find(|&&row| row > here) {
            Some(&row) if learnt.pages == Some(0) => {
                self.down.set(row);
                self.across.set(self.settings.left);
            }
            _ => self.form_feed(),
        }
    }

    fn escape(&mut self, second: u8, arguments: &[u8], learnt: &Learnt) {
        let number = |at: usize| i64::from(arguments.get(at).copied().unwrap_or(0));
        let width = self.settings.column_width();
        match second {
            b'@' => self.initialize(),
            b'J' => {
                let turned = i64::from(learnt.pages.unwrap_or(0)) * self.settings.edge();
                self.down.moves += 20 * number(0) - turned;
            }
            b'C' => {
                self.settings.page = match number(0) {
                    0 => 3_600 * number(1),
                    lines => lines * self.settings.line,
                };
                self.settings.skip = 0;
                self.down.set(0);
            }
            b'l' => {
                self.settings.left = number(0) * width;
                self.across.set(self.settings.left);
            }
            b'Q' => {
                self.settings.right = number(0) * width;
                self.across.set(self.settings.left);
            }
            b'$' => {
                let places = number(0) + 256 * number(1);
                self.across.set(self.settings.left + 60 * places);
            }
            b'\\' => self.across.moves += self.signed_move(number(0) + 256 * number(1)),
            // Done, they set nothing and move nothing.
            b'i' | b'*' | b'b' => {}
            _ => self.settings.escape(second, arguments),
        }
    }

    /// ESC \: two's complement of 16 bits, by the quality in force.
    fn signed_move(&self, number: i64) -> i64 {
        let signed = if number < 0x8000 {
            number
        } else {
            number - 0x1_0000
        };
        signed * if self.settings.draft { 30 } else { 20 }
    }

    fn initialize(&mut self) {
        let Settings {
            dots,
            auto_feed,
            paper,
            ..
        } = self.settings;
        self.settings = Settings::power_on(dots, auto_feed, paper);
        self.across.set(0);
        self.down.set(0);
    }
}

impl Default for Reckoning {
    fn default() -> Self {
        Reckoning::new()
    }
}

/// What is printed over a list of calls, given the bytes read by each.
pub fn expected(calls: &[Call], reads: &[usize]) -> Vec<Printed> {
    let mut reckoning = Reckoning::new();
    for (call, read) in calls.iter().zip(reads) {
        reckoning.call(call, *read);
    }
    reckoning.printed
}
