//! The stop lists of ESC D, ESC B and ESC b while they are gathered.

use crate::reading::Reading;
use crate::records::Reason;
use crate::state::{Stops, Waiting, CHANNELS, MOST_HORIZONTAL_STOPS, MOST_VERTICAL_STOPS};

impl Reading<'_> {
    /// ESC D: a list of horizontal stops begins.
    pub fn begin_horizontal_stops(&mut self) {
        self.state.gathered = Stops::EMPTY;
        self.state.waiting = Waiting::HorizontalStops { last: 0 };
    }

    /// ESC B and ESC b: a list of vertical stops for this channel begins.
    pub fn begin_vertical_stops(&mut self, channel: u8) {
        self.state.gathered = Stops::EMPTY;
        self.state.waiting = Waiting::VerticalStops { channel, last: 0 };
    }

    /// ESC b: the list that follows is for this channel, or is dropped if there
    /// is none of this number.
    pub fn set_channel(&mut self, channel: u8) -> Result<(), Reason> {
        if usize::from(channel) < CHANNELS {
            self.begin_vertical_stops(channel);
            return Ok(());
        }
        self.state.waiting = Waiting::DroppedStops { last: 0 };
        Err(Reason::NotAllowed)
    }

    /// ESC /: the channel that VT uses.
    pub fn choose_channel(&mut self, channel: u8) -> Result<(), Reason> {
        if usize::from(channel) >= CHANNELS {
            return Err(Reason::NotAllowed);
        }
        self.state.chosen = channel;
        Ok(())
    }

    /// A byte of an ESC D list; one not above the last ends it.
    #[inline(never)]
    pub fn horizontal_stop(&mut self, last: u8, byte: u8) {
        if byte <= last {
            self.state.horizontal = self.end_list();
            return;
        }
        self.state.waiting = Waiting::HorizontalStops { last: byte };
        let column = u32::from(byte);
        let place = self.state.left + column * self.column_width;
        let full = self.state.gathered.count >= MOST_HORIZONTAL_STOPS;
        if full || place > self.state.right {
            self.records.passed_over(byte, Reason::PastLimits);
        } else {
            self.state.gathered.add(column);
        }
    }

    /// A byte of an ESC B or ESC b list; one not above the last ends it.
    #[inline(never)]
    pub fn vertical_stop(&mut self, channel: u8, last: u8, byte: u8) {
        if byte <= last {
            let stops = self.end_list().of_a_channel();
            self.state.channels[usize::from(channel)] = Some(stops);
            return;
        }
        self.state.waiting = Waiting::VerticalStops {
            channel,
            last: byte,
        };
        let place = u32::from(byte) * self.state.line_amount;
        let full = self.state.gathered.count >= MOST_VERTICAL_STOPS;
        if full || !(1..self.state.edge()).contains(&place) {
            self.records.passed_over(byte, Reason::PastLimits);
        } else {
            self.state.gathered.add(place);
        }
    }

    /// A byte of a list that is dropped; one not above the last ends it.
    #[inline(never)]
    pub fn dropped_stop(&mut self, last: u8, byte: u8) {
        self.state.waiting = if byte <= last {
            Waiting::Nothing
        } else {
            Waiting::DroppedStops { last: byte }
        };
    }

    /// The list gathered; nothing is waited for any more.
    fn end_list(&mut self) -> Stops {
        self.state.waiting = Waiting::Nothing;
        std::mem::replace(&mut self.state.gathered, Stops::EMPTY)
    }
}
