//! The steps of the rules: one byte read at a time.

use crate::bounds::arguments_taken;
use crate::reading::Reading;
use crate::records::Reason;
use crate::state::{State, Waiting};

const BS: u8 = 0x08;
const HT: u8 = 0x09;
const LF: u8 = 0x0A;
const VT: u8 = 0x0B;
const FF: u8 = 0x0C;
const CR: u8 = 0x0D;
const SO: u8 = 0x0E;
const SI: u8 = 0x0F;
const DC2: u8 = 0x12;
const DC4: u8 = 0x14;
const ESC: u8 = 0x1B;

impl Reading<'_> {
    /// Reads one byte. Letters and image data come most often: they are read
    /// here, all else by functions of its own.
    #[inline(always)]
    pub fn step(&mut self, byte: u8) {
        match self.state.waiting {
            Waiting::Nothing => self.first_byte(byte),
            Waiting::SecondByte => self.second_byte(byte),
            Waiting::ThirdByte => self.third_byte(byte),
            Waiting::CommandMode => self.command_mode(byte),
            Waiting::Arguments {
                command, given: 0, ..
            } => self.first_argument(command, byte),
            Waiting::Arguments { command, first, .. } => self.second_argument(command, first, byte),
            Waiting::HorizontalStops { last } => self.horizontal_stop(last, byte),
            Waiting::VerticalStops { channel, last } => self.vertical_stop(channel, last, byte),
            Waiting::DroppedStops { last } => self.dropped_stop(last, byte),
            Waiting::ImageMode => self.image_mode(byte),
            Waiting::ColumnsLow { mode } => self.columns_low(mode, byte),
            Waiting::ColumnsHigh { mode, low } => self.columns_high(mode, low, byte),
            Waiting::Image { nth, columns, .. } => self.image_byte(byte, nth, columns),
        }
    }

    /// Writes a NO record for what could not be done.
    fn note(&mut self, done: Result<(), Reason>, byte: u8) {
        if let Err(reason) = done {
            self.records.passed_over(byte, reason);
        }
    }

    /// A letter, or a control byte, which after ESC 7 may have its top bit set.
    #[inline(always)]
    fn first_byte(&mut self, byte: u8) {
        if self.state.is_letter(byte) {
            self.letter(byte);
        } else {
            self.control_byte(byte);
        }
    }

    #[inline(never)]
    pub fn control_byte(&mut self, byte: u8) {
        let done = self.control(if byte < 0x80 { byte } else { byte - 0x80 });
        self.note(done, byte);
    }

    fn control(&mut self, code: u8) -> Result<(), Reason> {
        match code {
            BS => return self.move_across(-(self.advance as i32)),
            HT => return self.horizontal_tab(),
            LF => self.line_feed(),
            VT => self.vertical_tab(),
            FF => self.form_feed(),
            CR => self.carriage_return(),
            SO => self.set_width(|state| state.shift_out = true),
            SI => return self.reduce(),
            DC2 => self.set_width(|state| state.reduced = false),
            DC4 => self.end_shift_out(),
            ESC => self.state.waiting = Waiting::SecondByte,
            _ => return Err(Reason::Unlisted),
        }
        Ok(())
    }

    /// SI and ESC SI: reduced characters, not at 15 cpi.
    fn reduce(&mut self) -> Result<(), Reason> {
        if self.state.pitch == 15 {
            return Err(Reason::NotAllowed);
        }
        self.set_width(|state| state.reduced = true);
        Ok(())
    }

    /// An escape's second byte: a command done at once, or one to wait for.
    #[inline(never)]
    fn second_byte(&mut self, byte: u8) {
        self.state.waiting = Waiting::Nothing;
        match byte {
            SO => self.set_width(|state| state.shift_out = true),
            SI => {
                let done = self.reduce();
                self.note(done, byte);
            }
            b'@' => self.initialize(),
            b'0' => self.state.line_amount = 450,
            b'2' => self.state.line_amount = 600,
            b'O' => self.state.skip = 0,
            b'B' => self.begin_vertical_stops(0),
            b'D' => self.begin_horizontal_stops(),
            b'i' => self.state.waiting = Waiting::ThirdByte,
            b'*' => self.state.waiting = Waiting::ImageMode,
            b'P' => self.set_width(|state| state.pitch = 10),
            b'M' => self.set_width(|state| state.pitch = 12),
            b'g' => self.set_width(|state| state.pitch = 15),
            b'E' | b'F' => self.set_style(|state| state.bold = byte == b'E'),
            b'G' | b'H' => self.set_style(|state| state.double_strike = byte == b'G'),
            b'4' | b'5' => self.set_style(|state| state.italic = byte == b'4'),
            b'6' | b'7' => self.state.upper_codes_print = byte == b'6',
            b'T' => self.set_style(|state| {
                state.superscript = false;
                state.subscript = false;
            }),
            _ if arguments_taken(byte) > 0 => {
                self.state.waiting = Waiting::Arguments {
                    command: byte,
                    given: 0,
                    first: 0,
                }
            }
            _ => self.records.passed_over(byte, Reason::Unlisted),
        }
    }

    /// The third byte of ESC i, used up whatever it is: "a" has an argument,
    /// "S" asks for the status, which the link answers.
    #[inline(never)]
    fn third_byte(&mut self, byte: u8) {
        self.state.waiting = Waiting::Nothing;
        match byte {
            b'a' => self.state.waiting = Waiting::CommandMode,
            b'S' => {}
            _ => self.records.passed_over(byte, Reason::Unlisted),
        }
    }

    /// The argument of ESC i a: 0 keeps ESC/P, and no other mode is read.
    #[inline(never)]
    fn command_mode(&mut self, mode: u8) {
        self.state.waiting = Waiting::Nothing;
        if mode != 0 {
            self.records.passed_over(b'i', Reason::NotAllowed);
        }
    }

    /// A command's first argument: its only one, or another is waited for.
    #[inline(never)]
    fn first_argument(&mut self, command: u8, n: u8) {
        let another = match command {
            b'C' => n == 0,
            _ => arguments_taken(command) == 2,
        };
        if another {
            self.state.waiting = Waiting::Arguments {
                command,
                given: 1,
                first: n,
            };
        } else {
            self.state.waiting = Waiting::Nothing;
            let done = self.one_argument(command, n);
            self.note(done, command);
        }
    }

    /// A command's second argument.
    #[inline(never)]
    fn second_argument(&mut self, command: u8, first: u8, second: u8) {
        self.state.waiting = Waiting::Nothing;
        let done = self.two_arguments(command, first, second);
        self.note(done, command);
    }

    fn one_argument(&mut self, command: u8, n: u8) -> Result<(), Reason> {
        let amount = u32::from(n);
        match command {
            b'3' => self.state.line_amount = 20 * amount,
            b'A' if n <= 85 => self.state.line_amount = 60 * amount,
            b'+' => self.state.line_amount = 10 * amount,
            b'J' => self.feed(n),
            b'C' if n <= 127 => return self.set_page_length(amount * self.state.line_amount),
            b'N' if (1..=127).contains(&n) => {
                return self.set_skip(amount * self.state.line_amount)
            }
            b'/' => return self.choose_channel(n),
            b'b' => return self.set_channel(n),
            b'l' => return self.set_margins(amount * self.column_width, self.state.right),
            b'Q' => return self.set_margins(self.state.left, amount * self.column_width),
            b't' if n <= 1 => self.set_style(|state| state.italic_table = n == 0),
            b'R' if n <= 13 || n == 0x40 => self.state.country = n,
            b'q' if n <= 3 => self.set_style(|state| state.character_style = n),
            b'k' => self.state.font = n,
            b' ' => self.set_width(|state| state.spacing = n % 128),
            b'!' => self.set_width(|state| format(state, n)),
            b'p' | b'S' | b'x' | b'W' | b'w' | b'-' | b'%' => match n {
                0 | 0x30 => self.set_width(|state| switch(state, command, false)),
                1 | 0x31 => self.set_width(|state| switch(state, command, true)),
                _ => return Err(Reason::NotAllowed),
            },
            _ => return Err(Reason::NotAllowed),
        }
        Ok(())
    }

    fn two_arguments(&mut self, command: u8, a: u8, b: u8) -> Result<(), Reason> {
        let number = u16::from_le_bytes([a, b]);
        match command {
            b'$' => return self.go_across(self.state.left + 60 * u32::from(number)),
            b'\\' => {
                let step = if self.state.draft { 30 } else { 20 };
                return self.move_across(step * i32::from(number as i16));
            }
            b'C' if (1..=22).contains(&b) => return self.set_page_length(3_600 * u32::from(b)),
            b'C' => return Err(Reason::NotAllowed),
            b'K' => self.await_columns(0, number.into()),
            b'L' => self.await_columns(1, number.into()),
            b'Y' => self.await_columns(2, number.into()),
            _ => self.await_columns(3, number.into()),
        }
        Ok(())
    }
}

/// The commands whose argument is off or on.
fn switch(state: &mut State, command: u8, on: bool) {
    match command {
        b'p' => state.proportional = on,
        b'S' => {
            state.superscript = !on;
            state.subscript = on;
        }
        b'x' => state.draft = !on,
        b'W' => {
            state.double_width = on;
            state.shift_out = state.shift_out && on;
        }
        b'w' => state.double_height = on,
        b'-' => state.underline = on,
        _ => state.download_set = on,
    }
}

/// ESC !: each clear bit cancels.
fn format(state: &mut State, n: u8) {
    let bit = |value: u8| n & value != 0;
    state.pitch = if bit(0x01) { 12 } else { 10 };
    state.proportional = bit(0x02);
    state.reduced = bit(0x04);
    state.bold = bit(0x08);
    state.double_strike = bit(0x10);
    switch(state, b'W', bit(0x20));
    state.italic = bit(0x40);
    state.underline = bit(0x80);
}
