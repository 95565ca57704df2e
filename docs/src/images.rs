//! Images: the modes, the columns that are waited for, and their bytes.

use crate::reading::Reading;
use crate::records::{Reason, Record};
use crate::state::{Rounded, Waiting};

/// A mode of image data: the units of a column, and its bytes.
#[derive(Clone, Copy, Default)]
pub struct Mode {
    pub units: u32,
    pub bytes: u8,
}

impl Mode {
    /// The mode of this number of ESC *, if it is listed. Those of ESC K, L, Y
    /// and Z are 0 to 3.
    pub fn listed(number: u8) -> Option<Mode> {
        let (units, bytes) = match number {
            0 => (60, 1),
            1 => (30, 1),
            2 => (30, 1),
            3 => (15, 1),
            4 => (45, 1),
            6 => (40, 1),
            32 => (60, 3),
            33 => (30, 3),
            38 => (40, 3),
            39 => (20, 3),
            40 => (10, 3),
            _ => return None,
        };
        Some(Mode { units, bytes })
    }

    /// The mode of the image data that is waited for, if any is.
    pub fn of(waiting: Waiting) -> Mode {
        let listed = match waiting {
            Waiting::Image { mode, .. } => Mode::listed(mode),
            _ => None,
        };
        listed.unwrap_or_default()
    }

    /// The font field of this byte of a column.
    fn font(self, nth: u8) -> u8 {
        if self.bytes == 1 {
            0
        } else {
            nth
        }
    }
}

impl Reading<'_> {
    /// The mode of ESC *: another than the listed ones is passed over at once.
    #[inline(never)]
    pub fn image_mode(&mut self, mode: u8) {
        if Mode::listed(mode).is_some() {
            self.state.waiting = Waiting::ColumnsLow { mode };
        } else {
            self.state.waiting = Waiting::Nothing;
            self.records.passed_over(b'*', Reason::NotAllowed);
        }
    }

    #[inline(never)]
    pub fn columns_low(&mut self, mode: u8, low: u8) {
        self.state.waiting = Waiting::ColumnsHigh { mode, low };
    }

    #[inline(never)]
    pub fn columns_high(&mut self, mode: u8, low: u8, high: u8) {
        self.await_columns(mode, u16::from_le_bytes([low, high]).into());
    }

    /// Waits for so many columns of image data, if any.
    pub fn await_columns(&mut self, mode: u8, columns: u32) {
        self.state.waiting = match columns {
            0 => Waiting::Nothing,
            _ => Waiting::Image {
                mode,
                nth: 1,
                columns,
            },
        };
        self.mode = Mode::of(self.state.waiting);
    }

    /// A byte of an image column, which stands where the column does; after
    /// its last byte the place moves. Where the column does not fit, each of
    /// its bytes is passed over.
    #[inline(always)]
    pub fn image_byte(&mut self, byte: u8, nth: u8, columns: u32) {
        let mode = self.mode;
        let last = nth == mode.bytes;
        self.await_byte_after(last, columns);
        if self.fits(mode.units) {
            let record = self.image_record(self.state.column(), byte, mode, nth);
            self.records.put(&record);
            if last {
                self.state.across += mode.units;
            }
        } else {
            self.records.passed_over(byte, Reason::DoesNotFit);
        }
    }

    /// Waits for what comes after a column's last byte or after another, with
    /// so many columns left, the begun one included.
    #[inline(always)]
    fn await_byte_after(&mut self, last: bool, left: u32) {
        if let Waiting::Image { nth, columns, .. } = &mut self.state.waiting {
            if last {
                *nth = 1;
                *columns -= 1;
            } else {
                *nth += 1;
            }
        }
        if last && left == 1 {
            self.state.waiting = Waiting::Nothing;
        }
    }

    /// IM on the present row, in this dot column: this byte of an image column.
    #[inline(always)]
    pub fn image_record(&self, column: Rounded, byte: u8, mode: Mode, nth: u8) -> Record {
        Record {
            mark: *b"IM",
            column: column.dot,
            row: self.row,
            byte,
            font: mode.font(nth),
            advance: mode.units as u16,
            rest: column.rest,
            ..Record::default()
        }
    }
}
