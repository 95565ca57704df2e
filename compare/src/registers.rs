//! The two forms of a state, each in the other's: the plain reader's, and the
//! registers that the library's interface shows.

use crate::states::more_arguments;
use ierbulosc::{Channels, State as Registers, Stops as RegisterStops, CHANNELS, LINES, REGISTERS};
use plain_reader::{ChannelStops, State, Stops, Waiting};
use std::array::from_fn;

/// The plain state that registers stand for. None if one has a number that the
/// interface does not give it and the plain state has no place for: a flag
/// above 1, a byte above 255, a wait that its kind cannot have, or one that
/// does not follow from the others as it should.
pub fn plain(registers: &Registers) -> Option<State> {
    let r = registers;
    if follows(r) != *r {
        return None;
    }
    Some(State {
        resolution: r.dots_across,
        automatic_line_feed: flag(r.auto_feed)?,
        paper_width: r.paper_width,
        draft: flag(r.draft)?,
        upper_codes_print: flag(r.upper_prints)?,
        pitch: byte(r.pitch)?,
        spacing: byte(r.spacing)?,
        double_width: flag(r.wide)?,
        shift_out: flag(r.wide_once)?,
        reduced: flag(r.reduced)?,
        proportional: flag(r.proportional)?,
        bold: flag(r.bold)?,
        double_strike: flag(r.double_strike)?,
        italic: flag(r.italic)?,
        underline: flag(r.underline)?,
        superscript: flag(r.superscript)?,
        subscript: flag(r.subscript)?,
        font: byte(r.font)?,
        country: byte(r.country)?,
        character_style: byte(r.outline)?,
        double_height: flag(r.double_height)?,
        italic_table: flag(r.italic_table)?,
        download_set: flag(r.download)?,
        left: r.left,
        right: r.right,
        page_length: r.page,
        skip: r.skip,
        line_amount: r.line,
        across: r.across,
        down: r.down,
        horizontal: plain_list(&r.columns),
        channels: from_fn(|channel| plain_channel(&r.channels, channel)),
        chosen: byte(r.chosen)?,
        gathered: plain_list(&r.gathered),
        waiting: plain_waiting(r)?,
    })
}

fn flag(number: u32) -> Option<bool> {
    match number {
        0 => Some(false),
        1 => Some(true),
        _ => None,
    }
}

fn byte(number: u32) -> Option<u8> {
    u8::try_from(number).ok()
}

fn plain_list(list: &RegisterStops) -> Stops {
    Stops {
        stops: list.stops,
        count: list.count as usize,
    }
}

/// The stops of a channel; none if its count says that it was never set.
fn plain_channel(channels: &Channels, channel: usize) -> Option<ChannelStops> {
    let count = channels.counts[channel].checked_sub(1)?;
    Some(ChannelStops {
        stops: from_fn(|slot| channels.stops[LINES * channel + slot]),
        count: count as usize,
    })
}

fn plain_waiting(registers: &Registers) -> Option<Waiting> {
    let (command, last) = (byte(registers.command)?, byte(registers.argument)?);
    let arguments = |given, first| {
        Some(Waiting::Arguments {
            command,
            given,
            first,
        })
    };
    let more = |given| more_arguments(command, given, last);
    let mode = byte(registers.image_mode)?;
    let image = (mode, byte(registers.image_byte)?, registers.image_columns);
    match (registers.kind, command, last, image) {
        (ierbulosc::THIRD_ARGUMENT, b'*', low, (_, 0, 0)) => {
            Some(Waiting::ColumnsHigh { mode, low })
        }
        (ierbulosc::IMAGE_DATA, 0, 0, (_, nth, columns)) => {
            Some(Waiting::Image { mode, nth, columns })
        }
        (ierbulosc::STOP_LIST, b'B', last, (channel, 0, 0)) => {
            Some(Waiting::VerticalStops { channel, last })
        }
        (kind, _, _, (0, 0, 0)) => match (kind, command, last) {
            (ierbulosc::NOTHING, 0, 0) => Some(Waiting::Nothing),
            (ierbulosc::SECOND_BYTE, 0, 0) => Some(Waiting::SecondByte),
            (ierbulosc::FIRST_ARGUMENT, b'i', 0) => Some(Waiting::ThirdByte),
            (ierbulosc::SECOND_ARGUMENT, b'i', b'a') => Some(Waiting::CommandMode),
            (ierbulosc::FIRST_ARGUMENT, b'*', 0) => Some(Waiting::ImageMode),
            (ierbulosc::SECOND_ARGUMENT, b'*', mode) => Some(Waiting::ColumnsLow { mode }),
            (ierbulosc::FIRST_ARGUMENT, _, 0) if more(0) => arguments(0, 0),
            (ierbulosc::SECOND_ARGUMENT, _, first) if more(1) => arguments(1, first),
            (ierbulosc::STOP_LIST, b'D', _) => Some(Waiting::HorizontalStops { last }),
            (ierbulosc::DROPPED_LIST, 0, _) => Some(Waiting::DroppedStops { last }),
            _ => None,
        },
        _ => None,
    }
}

/// The registers of a plain state. None if a field does not go into its
/// register, or something is waited for that the interface has no kind for.
pub fn registers(state: &State) -> Option<Registers> {
    let (kind, [command, argument], (mode, nth, image_columns)) = waiting(state.waiting)?;
    Some(follows(&Registers {
        kind,
        command: command.into(),
        argument: argument.into(),
        image_mode: mode.into(),
        image_byte: nth.into(),
        image_columns,
        across: state.across,
        down: state.down,
        left: state.left,
        right: state.right,
        page: state.page_length,
        skip: state.skip,
        line: state.line_amount,
        dots_across: state.resolution,
        auto_feed: state.automatic_line_feed.into(),
        paper_width: state.paper_width,
        pitch: state.pitch.into(),
        spacing: state.spacing.into(),
        wide: state.double_width.into(),
        wide_once: state.shift_out.into(),
        reduced: state.reduced.into(),
        proportional: state.proportional.into(),
        bold: state.bold.into(),
        double_strike: state.double_strike.into(),
        italic: state.italic.into(),
        underline: state.underline.into(),
        superscript: state.superscript.into(),
        subscript: state.subscript.into(),
        font: state.font.into(),
        country: state.country.into(),
        outline: state.character_style.into(),
        double_height: state.double_height.into(),
        italic_table: state.italic_table.into(),
        download: state.download_set.into(),
        draft: state.draft.into(),
        upper_prints: state.upper_codes_print.into(),
        chosen: state.chosen.into(),
        columns: list(&state.horizontal)?,
        gathered: list(&state.gathered)?,
        channels: channels(&state.channels)?,
        ..Registers::from_registers([0; REGISTERS])
    }))
}

/// The registers with those that follow from others set by these, whatever
/// they are.
pub fn follows(registers: &Registers) -> Registers {
    let advance = advance(registers);
    Registers {
        dots_down: if registers.dots_across == 300 {
            300
        } else {
            200
        },
        style: style(registers),
        advance,
        column_width: if registers.proportional == 1 {
            360
        } else {
            advance
        },
        advance_dots: advance_dots(registers, advance),
        ..*registers
    }
}

fn is_wide(r: &Registers) -> bool {
    r.wide == 1 || r.wide_once == 1
}

/// The style bits of a letter.
fn style(r: &Registers) -> u32 {
    let bits = [
        (0, r.bold == 1),
        (1, r.double_strike == 1),
        (2, r.italic == 1),
        (3, r.underline == 1),
        (4, r.superscript == 1),
        (5, r.subscript == 1),
        (6, is_wide(r)),
        (7, r.double_height == 1),
        (10, r.proportional == 1),
        (11, r.reduced == 1),
        (12, r.italic_table == 1),
        (13, r.download == 1),
    ];
    let set = bits.iter().map(|&(bit, on)| u32::from(on) << bit);
    set.sum::<u32>()
        .wrapping_add(r.outline.wrapping_mul(1 << 8))
}

/// The width of a letter.
fn advance(r: &Registers) -> u32 {
    let reduced = r.reduced == 1;
    let base: u32 = match (r.proportional == 1, r.pitch) {
        (true, _) if reduced => 180,
        (true, _) => 360,
        (false, 10) if reduced => 216,
        (false, 10) => 360,
        (false, 12) if reduced => 180,
        (false, 12) => 300,
        (false, _) => 240,
    };
    let single = base.wrapping_add(r.spacing.wrapping_mul(20));
    match is_wide(r) {
        true => single.wrapping_mul(2),
        false => single,
    }
}

/// The advance in dots across: the whole dots, and 65,536 times what is over.
fn advance_dots(r: &Registers, advance: u32) -> u32 {
    let dots = if r.dots_across == 300 { 300 } else { 203 };
    let parts = advance.wrapping_mul(dots);
    (parts % 3_600 * 65_536).wrapping_add(parts / 3_600)
}

fn list(list: &Stops) -> Option<RegisterStops> {
    Some(RegisterStops {
        count: u32::try_from(list.count).ok()?,
        stops: list.stops,
    })
}

/// The channels: counts of 0 if never set, else of one more than the stops.
fn channels(all: &[Option<ChannelStops>; CHANNELS]) -> Option<Channels> {
    let mut channels = Channels {
        counts: [0; CHANNELS],
        stops: [0; CHANNELS * LINES],
    };
    for (channel, list) in all.iter().enumerate() {
        if let Some(list) = list {
            channels.counts[channel] = u32::try_from(list.count).ok()?.checked_add(1)?;
            channels.stops[LINES * channel..][..LINES].copy_from_slice(&list.stops);
        }
    }
    Some(channels)
}

/// What is waited for: its kind, command and argument, and of an image its
/// mode, the byte of a column and the columns; of a vertical list its channel
/// in the mode's place.
type Numbers = (u32, [u8; 2], (u8, u8, u32));

fn waiting(waiting: Waiting) -> Option<Numbers> {
    const NO_IMAGE: (u8, u8, u32) = (0, 0, 0);
    let (kind, command, argument) = match waiting {
        Waiting::Nothing => (ierbulosc::NOTHING, 0, 0),
        Waiting::SecondByte => (ierbulosc::SECOND_BYTE, 0, 0),
        Waiting::ThirdByte => (ierbulosc::FIRST_ARGUMENT, b'i', 0),
        Waiting::CommandMode => (ierbulosc::SECOND_ARGUMENT, b'i', b'a'),
        Waiting::Arguments {
            command,
            given,
            first,
        } => match (more_arguments(command, given, first), given) {
            (false, _) => return None,
            (true, 0) => (ierbulosc::FIRST_ARGUMENT, command, 0),
            (true, _) => (ierbulosc::SECOND_ARGUMENT, command, first),
        },
        Waiting::HorizontalStops { last } => (ierbulosc::STOP_LIST, b'D', last),
        Waiting::VerticalStops { channel, last } => {
            return Some((ierbulosc::STOP_LIST, [b'B', last], (channel, 0, 0)))
        }
        Waiting::DroppedStops { last } => (ierbulosc::DROPPED_LIST, 0, last),
        Waiting::ImageMode => (ierbulosc::FIRST_ARGUMENT, b'*', 0),
        Waiting::ColumnsLow { mode } => (ierbulosc::SECOND_ARGUMENT, b'*', mode),
        Waiting::ColumnsHigh { mode, low } => {
            return Some((ierbulosc::THIRD_ARGUMENT, [b'*', low], (mode, 0, 0)))
        }
        Waiting::Image { mode, nth, columns } => {
            return Some((ierbulosc::IMAGE_DATA, [0, 0], (mode, nth, columns)))
        }
    };
    Some((kind, [command, argument], NO_IMAGE))
}

/// Whether a list of stops is gathered.
pub fn gathers(registers: &Registers) -> bool {
    registers.kind == ierbulosc::STOP_LIST
}

/// All stops that no rule looks at: in slots past a count, and in the
/// gathering place while no list is gathered.
pub fn unseen_stops(registers: &mut Registers) -> impl Iterator<Item = &mut u32> {
    let gathers = gathers(registers);
    let Registers {
        columns,
        gathered,
        channels,
        ..
    } = registers;
    let seen = if gathers { gathered.count } else { 0 };
    past(columns.count, &mut columns.stops)
        .chain(past(seen, &mut gathered.stops))
        .chain(places_past(channels))
}

/// The places of all channels past their stops.
fn places_past(channels: &mut Channels) -> impl Iterator<Item = &mut u32> {
    let Channels { counts, stops } = channels;
    let places = stops.chunks_exact_mut(LINES).zip(counts);
    places.flat_map(|(places, count)| past(count.saturating_sub(1), places))
}

fn past(count: u32, stops: &mut [u32]) -> impl Iterator<Item = &mut u32> {
    stops.iter_mut().skip(count as usize)
}

/// The registers with the places of channels that were never set made 0: what
/// ESC @ leaves there is not said.
pub fn without_old_places(registers: &Registers) -> Registers {
    let mut without = *registers;
    let Channels { counts, stops } = &mut without.channels;
    for (places, count) in stops.chunks_exact_mut(LINES).zip(counts) {
        if *count == 0 {
            places.fill(0);
        }
    }
    without
}

/// The registers with the parts that no rule looks at made 0.
pub fn normal(registers: &Registers) -> Registers {
    let mut normal = *registers;
    unseen_stops(&mut normal).for_each(|stop| *stop = 0);
    if !gathers(registers) {
        normal.gathered.count = 0;
    }
    normal
}
