//! The settings in force, kept from the starts and the commands done.

use crate::received::List;

const BOLD: u16 = 1;
const DOUBLE_STRIKE: u16 = 1 << 1;
const ITALIC: u16 = 1 << 2;
const UNDERLINE: u16 = 1 << 3;
const SUPERSCRIPT: u16 = 1 << 4;
const SUBSCRIPT: u16 = 1 << 5;
const DOUBLE_WIDTH: u16 = 1 << 6;
const DOUBLE_HEIGHT: u16 = 1 << 7;
const CHARACTER_STYLE: u16 = 3 << 8;
const PROPORTIONAL: u16 = 1 << 10;
const REDUCED: u16 = 1 << 11;
const ITALIC_TABLE: u16 = 1 << 12;
const DOWNLOAD_SET: u16 = 1 << 13;

#[derive(Clone, Debug)]
pub struct Settings {
    /// Dots per inch, across and down.
    pub dots: (i64, i64),
    pub auto_feed: bool,
    /// The width of the paper.
    pub paper: i64,
    pub left: i64,
    pub right: i64,
    pub page: i64,
    pub skip: i64,
    pub line: i64,
    pub cpi: u8,
    /// The style field but for SO.
    flags: u16,
    pub so: bool,
    pub draft: bool,
    pub font: u8,
    pub country: u8,
    pub spacing: u8,
    pub upper_codes_print: bool,
    /// Horizontal stops, in columns.
    pub columns: Vec<i64>,
    /// Vertical stops in units, by channel; none while never set.
    rows: [Option<Vec<i64>>; 8],
    /// The channel of VT.
    chosen: u8,
    gathered: Vec<i64>,
}

impl Settings {
    pub fn power_on(dots: (i64, i64), auto_feed: bool, paper: i64) -> Settings {
        Settings {
            dots,
            auto_feed,
            paper,
            left: 0,
            right: paper,
            page: 39_600,
            skip: 0,
            line: 600,
            cpi: 10,
            flags: 0,
            so: false,
            draft: false,
            font: 0,
            country: 0,
            spacing: 0,
            upper_codes_print: true,
            columns: (1..=9).map(|eight| 8 * eight).collect(),
            rows: Default::default(),
            chosen: 0,
            gathered: Vec::new(),
        }
    }

    /// The settings of a start, accepted or refused.
    pub fn of_start(asked: &ierbulosc::Settings) -> Settings {
        let auto_feed = asked.auto_feed != 0;
        let paper = i64::from(asked.width);
        match (asked.resolution, paper) {
            (300, 7_200..=28_800) => Settings::power_on((300, 300), auto_feed, paper),
            (203, 7_200..=28_800) => Settings::power_on((203, 200), auto_feed, paper),
            _ => Settings::power_on((300, 300), false, 28_800),
        }
    }

    pub fn edge(&self) -> i64 {
        self.page - self.skip
    }

    /// The vertical stops of the chosen channel; none while never set.
    pub fn rows(&self) -> Option<&[i64]> {
        self.rows[usize::from(self.chosen)].as_deref()
    }

    /// The style field of a letter.
    pub fn style(&self) -> u16 {
        let so = if self.so { DOUBLE_WIDTH } else { 0 };
        self.flags | so
    }

    pub fn advance(&self) -> i64 {
        let reduced = self.flags & REDUCED != 0;
        let base = match (self.flags & PROPORTIONAL != 0, self.cpi) {
            (true, _) if reduced => 180,
            (true, _) => 360,
            (_, 15) => 240,
            (_, 12) if reduced => 180,
            (_, 12) => 300,
            _ if reduced => 216,
            _ => 360,
        };
        let times = if self.style() & DOUBLE_WIDTH != 0 {
            2
        } else {
            1
        };
        times * (base + 20 * i64::from(self.spacing))
    }

    pub fn column_width(&self) -> i64 {
        match self.flags & PROPORTIONAL {
            0 => self.advance(),
            _ => 360,
        }
    }

    fn flag(&mut self, flag: u16, on: bool) {
        self.flags &= !flag;
        if on {
            self.flags |= flag;
        }
    }

    /// SO, SI, DC2 and DC4, done.
    pub fn control(&mut self, code: u8) {
        match code {
            14 => self.so = true,
            15 => self.flag(REDUCED, true),
            18 => self.flag(REDUCED, false),
            20 => self.so = false,
            _ => {}
        }
    }

    /// An escape that changes settings only, done.
    pub fn escape(&mut self, second: u8, arguments: &[u8]) {
        let n = arguments.first().copied().unwrap_or(0);
        let on = n & 1 == 1;
        match second {
            b'0' => self.line = 450,
            b'2' => self.line = 600,
            b'3' => self.line = 20 * i64::from(n),
            b'A' => self.line = 60 * i64::from(n),
            b'+' => self.line = 10 * i64::from(n),
            b'N' => self.skip = i64::from(n) * self.line,
            b'O' => self.skip = 0,
            b'P' => self.cpi = 10,
            b'M' => self.cpi = 12,
            b'g' => self.cpi = 15,
            b'6' => self.upper_codes_print = true,
            b'7' => self.upper_codes_print = false,
            b'x' => self.draft = !on,
            b'/' => self.chosen = n,
            b'R' => self.country = n,
            b'k' => self.font = n,
            b' ' => self.spacing = n & 0x7F,
            b'!' => self.format(n),
            14 | 15 => self.control(second),
            _ => self.style_escape(second, n, on),
        }
    }

    fn style_escape(&mut self, second: u8, n: u8, on: bool) {
        match second {
            b'E' => self.flag(BOLD, true),
            b'F' => self.flag(BOLD, false),
            b'G' => self.flag(DOUBLE_STRIKE, true),
            b'H' => self.flag(DOUBLE_STRIKE, false),
            b'4' => self.flag(ITALIC, true),
            b'5' => self.flag(ITALIC, false),
            b'-' => self.flag(UNDERLINE, on),
            b'S' => {
                self.flag(SUPERSCRIPT, !on);
                self.flag(SUBSCRIPT, on);
            }
            b'T' => self.flag(SUPERSCRIPT | SUBSCRIPT, false),
            b'W' => self.wide(on),
            b'w' => self.flag(DOUBLE_HEIGHT, on),
            b'q' => {
                self.flag(CHARACTER_STYLE, false);
                self.flags |= u16::from(n) << 8;
            }
            b'p' => self.flag(PROPORTIONAL, on),
            b't' => self.flag(ITALIC_TABLE, n == 0),
            b'%' => self.flag(DOWNLOAD_SET, on),
            _ => {}
        }
    }

    /// ESC W: its end is SO's end too.
    fn wide(&mut self, on: bool) {
        self.flag(DOUBLE_WIDTH, on);
        if !on {
            self.so = false;
        }
    }

    fn format(&mut self, n: u8) {
        self.cpi = 10 + 2 * (n & 1);
        self.flag(PROPORTIONAL, n & 0x02 != 0);
        self.flag(REDUCED, n & 0x04 != 0);
        self.flag(BOLD, n & 0x08 != 0);
        self.flag(DOUBLE_STRIKE, n & 0x10 != 0);
        self.wide(n & 0x20 != 0);
        self.flag(ITALIC, n & 0x40 != 0);
        self.flag(UNDERLINE, n & 0x80 != 0);
    }

    /// A stop of a list that was not passed over.
    pub fn stop(&mut self, list: List, byte: u8) {
        let each = match list {
            List::Horizontal => 1,
            List::Vertical(_) => self.line,
            List::Dropped => return,
        };
        self.gathered.push(each * i64::from(byte));
    }

    /// The end of a list, which replaces the old one, if it is of any.
    pub fn end_of_list(&mut self, list: List) {
        let stops = std::mem::take(&mut self.gathered);
        match list {
            List::Horizontal => self.columns = stops,
            List::Vertical(channel) => self.rows[usize::from(channel)] = Some(stops),
            List::Dropped => {}
        }
    }
}
