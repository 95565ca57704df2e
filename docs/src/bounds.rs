//! The bounds that say what a state of ours is.

use crate::images::Mode;
use crate::state::{
    State, Stops, Waiting, CHANNELS, LARGEST_LINE, LARGEST_SPACING, LONGEST_PAGE,
    MOST_HORIZONTAL_STOPS, MOST_VERTICAL_STOPS, NARROWEST_PAPER, SHORTEST_PAGE, WIDEST_PAPER,
};

const HIGHEST_COLUMN: u32 = 255;
const LOWEST_PLACE_ON_A_PAGE: u32 = LONGEST_PAGE - 1;

/// How many stops a list may have, and the highest that one may be.
struct Limits {
    most: usize,
    highest: u32,
}

const HORIZONTAL: Limits = Limits {
    most: MOST_HORIZONTAL_STOPS,
    highest: HIGHEST_COLUMN,
};
const VERTICAL: Limits = Limits {
    most: MOST_VERTICAL_STOPS,
    highest: LOWEST_PLACE_ON_A_PAGE,
};

impl State {
    /// Whether the state is inside the bounds; total over all values.
    pub fn accepted(&self) -> bool {
        self.places_in_bounds()
            && self.settings_in_bounds()
            && self.horizontal.in_bounds(&HORIZONTAL)
            && self.channels_in_bounds()
            && self.waiting_in_bounds()
    }

    fn places_in_bounds(&self) -> bool {
        let across = self.left < self.right
            && self.right <= self.paper_width
            && (self.left..=self.right).contains(&self.across);
        let page = (SHORTEST_PAGE..=LONGEST_PAGE).contains(&self.page_length);
        let down = self
            .page_length
            .checked_sub(self.skip)
            .is_some_and(|edge| edge >= SHORTEST_PAGE && self.down < edge);
        across && page && down
    }

    fn settings_in_bounds(&self) -> bool {
        matches!(self.resolution, 300 | 203)
            && (NARROWEST_PAPER..=WIDEST_PAPER).contains(&self.paper_width)
            && matches!(self.pitch, 10 | 12 | 15)
            && self.line_amount <= LARGEST_LINE
            && self.spacing <= LARGEST_SPACING
            && matches!(self.country, 0..=13 | 0x40)
            && self.character_style <= 3
    }

    /// The chosen channel is one of ours, and so are the stops of each that was
    /// set.
    fn channels_in_bounds(&self) -> bool {
        let mut set = self.channels.iter().flatten();
        is_channel(self.chosen) && set.all(|stops| stops.in_bounds(&VERTICAL))
    }

    fn waiting_in_bounds(&self) -> bool {
        match self.waiting {
            Waiting::Nothing | Waiting::SecondByte => true,
            Waiting::ThirdByte | Waiting::CommandMode => true,
            Waiting::Arguments {
                command,
                given,
                first,
            } => arguments_in_bounds(command, given, first),
            Waiting::HorizontalStops { last } => self
                .gathered
                .gathered_in_bounds(&HORIZONTAL, u64::from(last)),
            Waiting::VerticalStops { channel, last } => {
                let place = u64::from(last) * u64::from(self.line_amount);
                is_channel(channel) && self.gathered.gathered_in_bounds(&VERTICAL, place)
            }
            Waiting::DroppedStops { .. } => true,
            Waiting::ImageMode => true,
            Waiting::ColumnsLow { mode } | Waiting::ColumnsHigh { mode, .. } => {
                Mode::listed(mode).is_some()
            }
            Waiting::Image { mode, nth, columns } => {
                Mode::listed(mode).is_some_and(|mode| (1..=mode.bytes).contains(&nth))
                    && (1..=65_535).contains(&columns)
            }
        }
    }
}

fn is_channel(number: u8) -> bool {
    usize::from(number) < CHANNELS
}

impl<const SLOTS: usize> Stops<SLOTS> {
    /// Not too many stops, ascending strictly, from 1 to the highest.
    fn in_bounds(&self, limits: &Limits) -> bool {
        self.count <= limits.most
            && self.list().windows(2).all(|pair| pair[0] < pair[1])
            && self.list().first().is_none_or(|&stop| stop >= 1)
            && self
                .list()
                .last()
                .is_none_or(|&stop| stop <= limits.highest)
    }

    /// A list being gathered: its last byte, made a stop, is not below its
    /// last stop.
    fn gathered_in_bounds(&self, limits: &Limits, last_byte_as_stop: u64) -> bool {
        self.in_bounds(limits)
            && self
                .list()
                .last()
                .is_none_or(|&stop| u64::from(stop) <= last_byte_as_stop)
    }
}

/// A listed command with arguments so far that the rules can leave.
fn arguments_in_bounds(command: u8, given: u8, first: u8) -> bool {
    match (arguments_taken(command), given) {
        (0, _) => false,
        (_, 0) => true,
        (2, 1) => command != b'C' || first == 0,
        _ => false,
    }
}

/// How many arguments a listed command may take at most, other than a list.
pub fn arguments_taken(command: u8) -> u8 {
    match command {
        b'3' | b'A' | b'+' | b'J' | b'N' | b'l' | b'Q' | b'/' | b'b' => 1,
        b'p' | b'S' | b'x' | b'W' | b'w' | b'-' | b'%' => 1,
        b't' | b'R' | b'q' | b'k' | b' ' | b'!' => 1,
        b'C' | b'$' | b'\\' | b'K' | b'L' | b'Y' | b'Z' => 2,
        _ => 0,
    }
}
