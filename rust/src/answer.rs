//! What a call answers.

/// What a call answers. Of each call only some come; see there.
#[derive(Clone, Copy, PartialEq, Eq, Debug)]
pub enum Answer {
    /// It is done: all of the input was read; the printer is started; the
    /// record was found, or there is none; the card is written.
    Done,
    /// As many bytes as allowed were read, and input is left.
    AllowanceUsed,
    /// Under [`ROOM`](crate::ROOM) bytes of output are left, and input and
    /// allowance are left.
    OutputFull,
    /// The resolution or the width is none that a start takes.
    SettingsRefused,
    /// The state is none that the library leaves.
    StateRefused,
    /// A list's length is no multiple of its records' size; of the C call
    /// `escp_write`: of its letters' size, which the cover cannot pass.
    LengthRefused,
    /// A letter's byte is not from 20h to 7Eh.
    ByteRefused,
    /// A letter's place is none that is taken.
    PlaceRefused,
    /// The output is shorter than [`card_room`](crate::card_room) says.
    RoomRefused,
    /// A number that stands for none of these. The library of this version
    /// answers with none such.
    Other(u8),
}

impl Answer {
    /// The answer of this number, as the C interface has it.
    pub const fn of(number: u8) -> Answer {
        match number {
            0 => Answer::Done,
            1 => Answer::AllowanceUsed,
            2 => Answer::OutputFull,
            3 => Answer::SettingsRefused,
            4 => Answer::StateRefused,
            5 => Answer::LengthRefused,
            8 => Answer::ByteRefused,
            9 => Answer::PlaceRefused,
            10 => Answer::RoomRefused,
            _ => Answer::Other(number),
        }
    }

    /// Its number in the C interface.
    pub const fn number(self) -> u8 {
        match self {
            Answer::Done => 0,
            Answer::AllowanceUsed => 1,
            Answer::OutputFull => 2,
            Answer::SettingsRefused => 3,
            Answer::StateRefused => 4,
            Answer::LengthRefused => 5,
            Answer::ByteRefused => 8,
            Answer::PlaceRefused => 9,
            Answer::RoomRefused => 10,
            Answer::Other(number) => number,
        }
    }
}
