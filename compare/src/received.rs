//! The commands as received: bytes gathered into letters, control bytes,
//! escapes with their arguments, stop list bytes and image bytes.

/// Which list of stops a byte belongs to.
#[derive(Clone, Copy, PartialEq, Eq, Debug)]
pub enum List {
    Horizontal,
    /// Of this channel, 0 to 7.
    Vertical(u8),
    /// Of no channel: it sets nothing.
    Dropped,
}

/// What a byte completes.
#[derive(Clone, PartialEq, Eq, Debug)]
pub enum Received {
    Letter(u8),
    /// A control byte, less 80h where ESC 7 makes it one.
    Control(u8),
    /// An escape with all its arguments.
    Escape(u8, Vec<u8>),
    /// A byte of a list that does not end it.
    Stop(List, u8),
    /// The byte that ends a list.
    EndOfList(List),
    /// An image byte, with which byte of what column it is, from 1 on.
    ImageByte(Column, u8, u8),
}

/// A sort of image column: how far it goes, and how many bytes it has.
#[derive(Clone, Copy, PartialEq, Eq, Debug)]
pub struct Column {
    pub units: i64,
    pub bytes: u8,
}

/// The modes of ESC * with one byte a column, and their units.
const ONE_BYTE: [(u8, i64); 6] = [(0, 60), (1, 30), (2, 30), (3, 15), (4, 45), (6, 40)];
/// Those with three bytes a column.
const THREE_BYTES: [(u8, i64); 5] = [(32, 60), (33, 30), (38, 40), (39, 20), (40, 10)];

/// The part of a command that has come so far.
#[derive(Clone, PartialEq, Eq, Debug, Default)]
pub enum Receiving {
    #[default]
    Fresh,
    Escape,
    Arguments(u8, Vec<u8>),
    List(List, u8),
    /// Image data: the columns left, and which byte of one comes.
    Image(Column, u8, u16),
}

impl Receiving {
    /// Takes one byte; gives what it completes, if it completes anything.
    pub fn take(&mut self, byte: u8, upper_codes_print: bool) -> Option<Received> {
        match std::mem::take(self) {
            Receiving::Fresh => self.fresh(byte, upper_codes_print),
            Receiving::Escape => self.escape(byte),
            Receiving::Arguments(second, mut arguments) => {
                arguments.push(byte);
                self.arguments(second, arguments)
            }
            Receiving::List(list, before) => {
                if byte <= before {
                    return Some(Received::EndOfList(list));
                }
                *self = Receiving::List(list, byte);
                Some(Received::Stop(list, byte))
            }
            Receiving::Image(column, nth, left) => {
                if nth < column.bytes {
                    *self = Receiving::Image(column, nth + 1, left);
                } else if left > 1 {
                    *self = Receiving::Image(column, 1, left - 1);
                }
                Some(Received::ImageByte(column, nth, byte))
            }
        }
    }

    fn fresh(&mut self, byte: u8, upper_codes_print: bool) -> Option<Received> {
        let upper_control = (0x80..0xA0).contains(&byte) && !upper_codes_print;
        let read_as = if upper_control { byte & 0x7F } else { byte };
        if read_as == 0x1B {
            *self = Receiving::Escape;
            return None;
        }
        if read_as < 0x20 || read_as == 0x7F {
            Some(Received::Control(read_as))
        } else {
            Some(Received::Letter(byte))
        }
    }

    fn escape(&mut self, second: u8) -> Option<Received> {
        match second {
            b'D' => *self = Receiving::List(List::Horizontal, 0),
            b'B' => *self = Receiving::List(List::Vertical(0), 0),
            _ if wanted(second, &[]) > 0 => *self = Receiving::Arguments(second, Vec::new()),
            _ => return Some(Received::Escape(second, Vec::new())),
        }
        None
    }

    fn arguments(&mut self, second: u8, arguments: Vec<u8>) -> Option<Received> {
        if arguments.len() < wanted(second, &arguments) {
            *self = Receiving::Arguments(second, arguments);
            return None;
        }
        if let Some((column, columns @ 1..)) = image(second, &arguments) {
            *self = Receiving::Image(column, 1, columns);
        }
        if let (b'b', [channel]) = (second, &arguments[..]) {
            *self = Receiving::List(list_of(*channel), 0);
        }
        Some(Received::Escape(second, arguments))
    }
}

/// The list that ESC b opens.
fn list_of(channel: u8) -> List {
    match channel {
        0..=7 => List::Vertical(channel),
        _ => List::Dropped,
    }
}

/// The columns that an escape asks for with all its arguments, and how many.
fn image(second: u8, arguments: &[u8]) -> Option<(Column, u16)> {
    let one_byte = |units| Some(Column { units, bytes: 1 });
    let column = match (second, arguments) {
        (b'K', _) => one_byte(60),
        (b'L' | b'Y', _) => one_byte(30),
        (b'Z', _) => one_byte(15),
        (b'*', [mode, ..]) => listed(*mode),
        _ => None,
    }?;
    let [.., low, high] = *arguments else {
        return None;
    };
    Some((column, u16::from(low) + 256 * u16::from(high)))
}

/// The column of a mode of ESC *, if that is listed.
fn listed(mode: u8) -> Option<Column> {
    let units = |modes: &[(u8, i64)]| {
        let mut modes = modes.iter();
        modes.find(|(listed, _)| *listed == mode).map(|mode| mode.1)
    };
    let one = units(&ONE_BYTE).map(|units| Column { units, bytes: 1 });
    one.or(units(&THREE_BYTES).map(|units| Column { units, bytes: 3 }))
}

/// How many arguments an escape wants, seeing those it has. The third byte of
/// ESC i counts as one; a mode of ESC * that is not listed wants no more.
fn wanted(second: u8, so_far: &[u8]) -> usize {
    match (second, so_far.first()) {
        (b'C', Some(0)) | (b'i', Some(b'a')) => 2,
        (b'C' | b'i', _) => 1,
        (b'*', Some(&mode)) if listed(mode).is_none() => 1,
        (b'*', _) => 3,
        _ if b"$\\KLYZ".contains(&second) => 2,
        _ => usize::from(b"3A+JNlQpSxWw-%tRqk !/b".contains(&second)),
    }
}
