//! The printer state, power-on and the widths that follow from the settings.

/// The narrowest paper: 20 columns of 10 cpi.
pub(crate) const NARROWEST_PAPER: u32 = 7_200;
/// The widest paper: 80 columns of 10 cpi.
pub(crate) const WIDEST_PAPER: u32 = 28_800;
pub(crate) const SHORTEST_PAGE: u32 = 3_600;
pub(crate) const LONGEST_PAGE: u32 = 79_200;
pub(crate) const LARGEST_LINE: u32 = 5_100;
pub(crate) const LARGEST_SPACING: u8 = 127;

const POWER_ON_PAGE: u32 = 39_600;
const POWER_ON_LINE: u32 = 600;

/// The most horizontal stops, and so the slots of a list being gathered.
pub(crate) const MOST_HORIZONTAL_STOPS: usize = 32;
/// The most stops of a vertical channel.
pub(crate) const MOST_VERTICAL_STOPS: usize = 16;
/// The vertical channels, numbered from 0.
pub const CHANNELS: usize = 8;

/// A list of tab stops and how many of its slots count.
#[derive(Clone, PartialEq, Eq, Debug)]
pub struct Stops<const SLOTS: usize = MOST_HORIZONTAL_STOPS> {
    pub stops: [u32; SLOTS],
    pub count: usize,
}

/// The stops of a vertical channel.
pub type ChannelStops = Stops<MOST_VERTICAL_STOPS>;

impl<const SLOTS: usize> Stops<SLOTS> {
    pub const EMPTY: Self = Stops {
        stops: [0; SLOTS],
        count: 0,
    };

    /// The stops that count.
    pub(crate) fn list(&self) -> &[u32] {
        &self.stops[..self.count]
    }

    /// Adds a stop to a list that has room for it.
    pub(crate) fn add(&mut self, stop: u32) {
        self.stops[self.count] = stop;
        self.count += 1;
    }
}

impl Stops {
    /// The list as a channel has it, which takes no more stops than there are
    /// in it.
    pub(crate) fn of_a_channel(&self) -> ChannelStops {
        let mut stops = ChannelStops::EMPTY;
        self.list().iter().for_each(|&stop| stops.add(stop));
        stops
    }
}

/// What the reader is still waiting for.
#[derive(Clone, Copy, PartialEq, Eq, Debug)]
pub enum Waiting {
    Nothing,
    /// An escape's second byte.
    SecondByte,
    /// The third byte of ESC i.
    ThirdByte,
    /// The argument of ESC i a.
    CommandMode,
    /// Arguments of a command, named by its second byte: how many are given
    /// so far, and the first of them (of no meaning while none is given).
    Arguments {
        command: u8,
        given: u8,
        first: u8,
    },
    /// A list of horizontal stops (ESC D), after this byte.
    HorizontalStops {
        last: u8,
    },
    /// A list of vertical stops (ESC B, ESC b) for this channel, after this
    /// byte.
    VerticalStops {
        channel: u8,
        last: u8,
    },
    /// A list of ESC b for no channel, which is dropped, after this byte.
    DroppedStops {
        last: u8,
    },
    /// The mode of ESC *.
    ImageMode,
    /// The low byte of the columns of ESC *, after this mode.
    ColumnsLow {
        mode: u8,
    },
    /// The high byte of the columns of ESC *, after this mode and low byte.
    ColumnsHigh {
        mode: u8,
        low: u8,
    },
    /// Image data: the mode's number, which byte of its column comes, from 1
    /// on, and the columns left, the begun one included.
    Image {
        mode: u8,
        nth: u8,
        columns: u32,
    },
}

/// The printer state. Places and lengths are in units.
#[derive(Clone, PartialEq, Eq, Debug)]
pub struct State {
    /// Dots per inch across: 300 or 203.
    pub resolution: u32,
    pub automatic_line_feed: bool,
    pub paper_width: u32,
    /// The place across, from the paper's left edge.
    pub across: u32,
    /// The place down, from the page's top.
    pub down: u32,
    pub left: u32,
    pub right: u32,
    pub page_length: u32,
    pub skip: u32,
    pub line_amount: u32,
    /// Characters per inch: 10, 12 or 15.
    pub pitch: u8,
    pub proportional: bool,
    pub reduced: bool,
    /// SO: double width that ends by itself.
    pub shift_out: bool,
    /// ESC W: double width that stays.
    pub double_width: bool,
    pub double_height: bool,
    pub bold: bool,
    pub double_strike: bool,
    pub italic: bool,
    pub underline: bool,
    pub superscript: bool,
    pub subscript: bool,
    /// The ESC q number.
    pub character_style: u8,
    /// ESC t 0: upper codes come from the italic table.
    pub italic_table: bool,
    pub download_set: bool,
    /// ESC x: draft quality, else letter quality.
    pub draft: bool,
    pub font: u8,
    pub country: u8,
    pub spacing: u8,
    /// ESC 6: 80h to 9Fh print; after ESC 7 they are control bytes.
    pub upper_codes_print: bool,
    /// Horizontal stops in force, in columns.
    pub horizontal: Stops,
    /// Vertical stops in force, in units from the page's top, by channel; none
    /// for a channel that was never set.
    pub channels: [Option<ChannelStops>; CHANNELS],
    /// The channel that VT uses (ESC /).
    pub chosen: u8,
    /// The list that ESC D, ESC B or ESC b is gathering, of no meaning while
    /// none is waited for.
    pub gathered: Stops,
    pub waiting: Waiting,
}

impl State {
    /// The power-on state.
    pub fn power_on(resolution: u32, automatic_line_feed: bool, paper_width: u32) -> State {
        State {
            resolution,
            automatic_line_feed,
            paper_width,
            across: 0,
            down: 0,
            left: 0,
            right: paper_width,
            page_length: POWER_ON_PAGE,
            skip: 0,
            line_amount: POWER_ON_LINE,
            pitch: 10,
            proportional: false,
            reduced: false,
            shift_out: false,
            double_width: false,
            double_height: false,
            bold: false,
            double_strike: false,
            italic: false,
            underline: false,
            superscript: false,
            subscript: false,
            character_style: 0,
            italic_table: false,
            download_set: false,
            draft: false,
            font: 0,
            country: 0,
            spacing: 0,
            upper_codes_print: true,
            horizontal: every_eight_columns(),
            channels: [const { None }; CHANNELS],
            chosen: 0,
            gathered: Stops::EMPTY,
            waiting: Waiting::Nothing,
        }
    }

    /// The end of the page's usable length.
    pub(crate) fn edge(&self) -> u32 {
        self.page_length - self.skip
    }

    /// The vertical stops of the chosen channel; none if it was never set.
    pub(crate) fn vertical_stops(&self) -> Option<&[u32]> {
        let channel = &self.channels[usize::from(self.chosen)];
        channel.as_ref().map(Stops::list)
    }

    /// A letter's advance in units.
    pub(crate) fn advance(&self) -> u32 {
        let single = self.base_width() + 20 * u32::from(self.spacing);
        if self.double_width || self.shift_out {
            2 * single
        } else {
            single
        }
    }

    /// The width that stops and margins count in, of letters so far apart.
    pub(crate) fn column_width(&self, advance: u32) -> u32 {
        if self.proportional {
            360
        } else {
            advance
        }
    }

    fn base_width(&self) -> u32 {
        match (self.proportional, self.reduced, self.pitch) {
            (true, false, _) => 360,
            (true, true, _) => 180,
            (false, false, 10) => 360,
            (false, false, 12) => 300,
            (false, true, 10) => 216,
            (false, true, 12) => 180,
            (false, _, _) => 240,
        }
    }

    /// Whether a command's first byte is a letter.
    pub(crate) fn is_letter(&self, byte: u8) -> bool {
        match byte {
            0x20..=0x7E | 0xA0..=0xFF => true,
            0x80..=0x9F => self.upper_codes_print,
            _ => false,
        }
    }

    /// The style field of a letter's record.
    pub(crate) fn style(&self) -> u16 {
        u16::from(self.bold)
            | u16::from(self.double_strike) << 1
            | u16::from(self.italic) << 2
            | u16::from(self.underline) << 3
            | u16::from(self.superscript) << 4
            | u16::from(self.subscript) << 5
            | u16::from(self.double_width || self.shift_out) << 6
            | u16::from(self.double_height) << 7
            | u16::from(self.character_style) << 8
            | u16::from(self.proportional) << 10
            | u16::from(self.reduced) << 11
            | u16::from(self.italic_table) << 12
            | u16::from(self.download_set) << 13
    }

    /// The dot column of the place across, and its rest.
    pub(crate) fn column(&self) -> Rounded {
        rounded(dot_parts(self.across, self.resolution))
    }

    /// The dot row of the place down.
    pub(crate) fn row(&self) -> u16 {
        let per_inch = if self.resolution == 203 { 200 } else { 300 };
        rounded(dot_parts(self.down, per_inch)).dot
    }
}

/// The horizontal stops of power-on: columns 8, 16 .. 72.
fn every_eight_columns() -> Stops {
    let mut stops = Stops::EMPTY;
    for column in (8..=72).step_by(8) {
        stops.add(column);
    }
    stops
}

/// A length in dots: the nearest dot, and by how much it falls short of the
/// length, in parts of a dot, of which it has 3,600: -1,800 to 1,799.
#[derive(Clone, Copy, Default)]
pub(crate) struct Rounded {
    pub(crate) dot: u16,
    pub(crate) rest: i16,
}

/// So many units in parts of a dot, and half a dot.
pub(crate) fn dot_parts(units: u32, per_inch: u32) -> u32 {
    units * per_inch + 1_800
}

/// The rounding rule, from such parts to dots.
#[inline(always)]
pub(crate) fn rounded(parts: u32) -> Rounded {
    Rounded {
        dot: (parts / 3_600) as u16,
        rest: (parts % 3_600) as i16 - 1_800,
    }
}
