//! Arbitrary states: reached or made up inside the bounds, then with one or a
//! few fields set at, inside and outside their bounds.

use crate::calls::room_for;
use crate::generate::{self, ONE_BYTE_MODES, THREE_BYTE_MODES};
use crate::random::Random;
use crate::{NARROWEST, WIDEST};
use plain_reader::{read, start, ChannelStops, State, Stops, Waiting, CHANNELS};
use std::array::from_fn;

const LONGEST: u64 = 79_200;

/// The bounds of a list of stops: how many there are, and how high they are.
#[derive(Clone, Copy)]
struct Limits {
    most: usize,
    highest: u64,
}

const COLUMNS: Limits = Limits {
    most: ierbulosc::COLUMNS,
    highest: 255,
};
const LINES: Limits = Limits {
    most: ierbulosc::LINES,
    highest: LONGEST - 1,
};

/// What may be waited for inside an escape, but for arguments, lists and
/// images.
const INSIDE_ESCAPES: [Waiting; 4] = [
    Waiting::SecondByte,
    Waiting::ThirdByte,
    Waiting::CommandMode,
    Waiting::ImageMode,
];

/// Escapes with one argument, but ESC C.
pub const ONE_ARGUMENT: &[u8] = b"3A+JNlQpSxWw-%tRqk !/b";
/// Escapes with two arguments, but ESC C 0.
pub const TWO_ARGUMENTS: &[u8] = b"$\\KLYZ";

/// Whether an escape waits for arguments after so many, of which this is the
/// first.
pub fn more_arguments(command: u8, given: u8, first: u8) -> bool {
    let two = TWO_ARGUMENTS.contains(&command);
    match given {
        0 => two || command == b'C' || ONE_ARGUMENT.contains(&command),
        1 => two || (command, first) == (b'C', 0),
        _ => false,
    }
}

/// A state that the plain reader reaches on a generated input.
pub fn reached(random: &mut Random) -> State {
    let dots = random.pick(&[300, 203]);
    let (_, mut state) = start(dots, random.flag(), a_width(random));
    let phrases = random.below(30);
    let input = generate::input(random, phrases);
    let cut = random.between(input.len() as u64 / 2, input.len() as u64);
    let mut out = vec![0; room_for(input.len())];
    read(&mut state, &input, cut as usize, &mut out);
    state
}

/// A width of paper: the widest, or another.
fn a_width(random: &mut Random) -> u32 {
    match random.flag() {
        true => WIDEST,
        false => between(random, NARROWEST, WIDEST),
    }
}

/// A state inside the bounds, which no input need reach.
pub fn inside(random: &mut Random) -> State {
    let width = a_width(random);
    let (_, mut state) = start(random.pick(&[300, 203]), random.flag(), width);
    state.left = random.below(width.into()) as u32;
    state.right = between(random, state.left + 1, width);
    state.across = between(random, state.left, state.right);
    state.page_length = between(random, 3_600, LONGEST as u32);
    state.skip = match random.below(3) {
        0 => 0,
        1 => state.page_length - 3_600,
        _ => random.below(u64::from(state.page_length) - 3_599) as u32,
    };
    state.down = random.below(u64::from(state.page_length - state.skip)) as u32;
    state.line_amount = random.below(5_101) as u32;
    state.pitch = random.pick(&[10, 12, 15]);
    let widest = random.pick(&[8, 128]);
    state.spacing = random.below(widest) as u8;
    state.country = random.pick(&[0, 1, 13, 0x40]);
    state.character_style = random.below(4) as u8;
    state.font = random.byte();
    for _ in 0..random.below(12) {
        toggle(random, &mut state);
    }
    state.horizontal = ascending(random, COLUMNS);
    state.channels = from_fn(|_| a_channel(random));
    state.chosen = random.below(CHANNELS as u64) as u8;
    if random.flag() {
        await_inside(random, &mut state);
    }
    state
}

/// A state of any sort; some are accepted, many are not.
pub fn arbitrary(random: &mut Random) -> State {
    let mut state = match random.below(2) {
        0 => reached(random),
        _ => inside(random),
    };
    let changes = random.pick(&[0, 1, 1, 1, 2, 2, 3, 4, 6]);
    for _ in 0..changes {
        change(random, &mut state);
    }
    state
}

/// The state with the parts that no rule looks at made 0: slots past a count,
/// the gathering place while no list is gathered, an argument not given.
pub fn normal(state: &State) -> State {
    let mut state = state.clone();
    clear_past_count(&mut state.horizontal);
    state
        .channels
        .iter_mut()
        .flatten()
        .for_each(clear_past_count);
    match state.waiting {
        Waiting::HorizontalStops { .. } | Waiting::VerticalStops { .. } => {
            clear_past_count(&mut state.gathered);
        }
        _ => state.gathered = Stops::EMPTY,
    }
    if let Waiting::Arguments {
        given: 0, first, ..
    } = &mut state.waiting
    {
        *first = 0;
    }
    state
}

fn clear_past_count<const SLOTS: usize>(list: &mut Stops<SLOTS>) {
    let unseen = list.stops.iter_mut().skip(list.count);
    unseen.for_each(|stop| *stop = 0);
}

fn between(random: &mut Random, first: u32, last: u32) -> u32 {
    match random.below(4) {
        0 => first,
        1 => last,
        _ => random.between(u64::from(first), u64::from(last)) as u32,
    }
}

/// A number at, beside, far from or between two bounds.
fn near(random: &mut Random, lowest: u32, highest: u32) -> u32 {
    match random.below(10) {
        0 => lowest.wrapping_sub(1),
        1 => highest.wrapping_add(1),
        2 => random.pick(&[0, 1, u32::MAX, u32::MAX - 1, 65_536, 1 << 31]),
        3 => lowest,
        4 => highest,
        _ => between(random, lowest, highest.max(lowest)),
    }
}

/// Sets one field, or one group of fields, to some value.
pub fn change(random: &mut Random, state: &mut State) {
    let edge = state.page_length.saturating_sub(state.skip);
    match random.below(30) {
        0 => state.resolution = random.pick(&[300, 203, 200, 0, 299, 204, 65_836]),
        1 => state.across = near(random, state.left, state.right),
        2 => state.down = near(random, 0, edge.saturating_sub(1)),
        3 => state.left = near(random, 0, state.across),
        4 => state.right = near(random, state.across.max(1), state.paper_width),
        5 => state.left = near(random, 0, state.right.saturating_sub(1)),
        6 => state.page_length = near(random, 3_600, LONGEST as u32),
        7 => state.skip = near(random, 0, state.page_length.saturating_sub(3_600)),
        8 => state.line_amount = near(random, 0, 5_100),
        9 => state.pitch = random.pick(&[10, 12, 15, 10, 12, 15, 0, 9, 11, 13, 14, 16, 255]),
        10 => state.character_style = random.pick(&[0, 1, 2, 3, 4, 255]),
        11 => state.country = random.pick(&[0, 7, 12, 13, 0x40, 14, 0x3F, 0x41, 255]),
        12 => state.spacing = random.pick(&[0, 1, 64, 126, 127, 128, 129, 255]),
        13 => state.font = random.byte(),
        14 => toggle(random, state),
        15 => change_chosen(random, state),
        16 => change_list(random, &mut state.horizontal, COLUMNS),
        17 | 27 | 28 => change_channel(random, state),
        18 => change_list(random, &mut state.gathered, COLUMNS),
        19 => change_list(random, &mut state.gathered, LINES),
        20 => await_arguments(random, state),
        21 => await_list(random, state),
        22 => await_image(random, state),
        23 => state.waiting = random.pick(&INSIDE_ESCAPES),
        24 => change_width(random, state),
        25 => await_columns_of_image(random, state),
        26 => await_dropped(random, state),
        _ => state.waiting = Waiting::Nothing,
    }
}

/// Sets the width of the paper at or beside its bounds, or the right margin.
fn change_width(random: &mut Random, state: &mut State) {
    state.paper_width = match random.below(5) {
        0 => state.right.wrapping_sub(1),
        1 => state.right,
        2 => state.right.wrapping_add(1),
        _ => near(random, NARROWEST, WIDEST),
    };
}

fn toggle(random: &mut Random, state: &mut State) {
    let flag = match random.below(16) {
        0 => &mut state.automatic_line_feed,
        1 => &mut state.proportional,
        2 => &mut state.reduced,
        3 => &mut state.shift_out,
        4 => &mut state.double_width,
        5 => &mut state.double_height,
        6 => &mut state.bold,
        7 => &mut state.double_strike,
        8 => &mut state.italic,
        9 => &mut state.underline,
        10 => &mut state.superscript,
        11 => &mut state.subscript,
        12 => &mut state.italic_table,
        13 => &mut state.download_set,
        14 => &mut state.draft,
        _ => &mut state.upper_codes_print,
    };
    *flag = !*flag;
}

/// A channel: never set, set to none, or with stops.
fn a_channel(random: &mut Random) -> Option<ChannelStops> {
    match random.below(3) {
        0 => None,
        _ => Some(ascending(random, LINES)),
    }
}

/// The number of a channel, or another beside them, far from them or for which
/// one may be taken.
pub fn a_channel_number(random: &mut Random) -> u8 {
    match random.below(8) {
        0 => random.pick(&[8, 9, 15, 16, 0x30, 0x37, 128, 255]),
        1 => random.pick(&[0, 7]),
        _ => random.below(CHANNELS as u64) as u8,
    }
}

/// Chooses a channel, or a number that is none.
fn change_chosen(random: &mut Random, state: &mut State) {
    state.chosen = match random.flag() {
        true => a_channel_number(random),
        false => near(random, 0, CHANNELS as u32 - 1) as u8,
    };
}

/// Sets or changes one of the channels, now and then the chosen one.
fn change_channel(random: &mut Random, state: &mut State) {
    let any = random.below(CHANNELS as u64) as usize;
    let channel = match random.below(3) {
        0 => usize::from(state.chosen).min(CHANNELS - 1),
        _ => any,
    };
    match &mut state.channels[channel] {
        Some(list) if random.percent(80) => change_list(random, list, LINES),
        channel => *channel = a_channel(random),
    }
}

/// A count of stops inside, at, beside or far from its limits.
pub fn a_count(random: &mut Random) -> u32 {
    random.pick(&[
        0,
        1,
        15,
        16,
        17,
        18,
        31,
        32,
        33,
        255,
        256,
        65_536,
        u32::MAX - 1,
        u32::MAX,
    ])
}

/// A list inside its bounds, of any length up to the most.
fn ascending<const SLOTS: usize>(random: &mut Random, limits: Limits) -> Stops<SLOTS> {
    let most = limits.most;
    let wanted = random.pick(&[0, 1, 3, 8, most - 1, most]);
    so_many(random, wanted, limits.highest)
}

/// So many stops, ascending up to the highest.
fn so_many<const SLOTS: usize>(random: &mut Random, wanted: usize, highest: u64) -> Stops<SLOTS> {
    let mut list = Stops::EMPTY;
    let mut last = 0;
    for (slot, stop) in list.stops.iter_mut().take(wanted).enumerate() {
        let room = (highest - last) / (wanted - slot) as u64;
        last = random.between(last + 1, last + room.max(1)).min(highest);
        *stop = last as u32;
    }
    list.count = wanted;
    list
}

/// Sets a list's count or one of its stops, or makes it a new one.
fn change_list<const SLOTS: usize>(random: &mut Random, list: &mut Stops<SLOTS>, limits: Limits) {
    let Limits { most, highest } = limits;
    let room = list.stops.len();
    let held = list.count.clamp(1, room);
    let slot = random.below(held as u64) as usize;
    let other = list.stops[random.below(room as u64) as usize];
    match random.below(14) {
        0 => list.count = a_count(random) as usize,
        1 => {
            *list = so_many(random, room, highest);
            list.count = random.pick(&[most, most + 1]);
        }
        2 => list.count = list.count.wrapping_add(1),
        3 => list.count = list.count.saturating_sub(1),
        4 => list.stops[slot] = near(random, 1, highest as u32),
        5 => list.stops[slot] = other,
        6 => list.stops[slot] = list.stops[slot].wrapping_add(1),
        7 => list.stops[held - 1] = near(random, 1, highest as u32),
        8 => list.stops[random.pick(&[most, room]) - 1] = random.number() as u32,
        9 => list.stops.swap(slot, 0),
        10 => list.stops[held - 1] = (highest + random.below(2)) as u32,
        11 => {
            *list = so_many(random, room, highest);
            list.count = a_count(random) as usize;
        }
        _ => *list = ascending(random, limits),
    }
}

/// Arguments of a listed or any other command, some of them given.
fn await_arguments(random: &mut Random, state: &mut State) {
    let command = match random.below(10) {
        0 | 1 => random.byte(),
        2 | 3 => random.pick(b"BD@E0&*b/\x0F\x1B"),
        4 => b'C',
        5 | 6 => random.pick(TWO_ARGUMENTS),
        _ => random.pick(ONE_ARGUMENT),
    };
    let given = match random.below(6) {
        0 => random.pick(&[1, 2, 3, 255]),
        1..=3 if more_arguments(command, 1, 0) => 1,
        _ => 0,
    };
    state.waiting = Waiting::Arguments {
        command,
        given,
        first: if random.flag() { 0 } else { random.byte() },
    };
}

/// A list being gathered, whose last byte is at, above or below its last stop:
/// a new one, or of what the gathering place held.
fn await_list(random: &mut Random, state: &mut State) {
    if random.flag() {
        await_columns(random, state);
    } else {
        await_lines(random, state);
    }
}

fn await_columns(random: &mut Random, state: &mut State) {
    if random.flag() {
        state.gathered = ascending(random, COLUMNS);
    }
    if random.flag() {
        change_list(random, &mut state.gathered, COLUMNS);
    }
    let last = last_stop(&state.gathered);
    state.waiting = Waiting::HorizontalStops {
        last: beside(random, last),
    };
}

fn await_lines(random: &mut Random, state: &mut State) {
    if random.flag() {
        state.gathered = lines(random, state.line_amount);
    }
    if random.flag() {
        change_list(random, &mut state.gathered, LINES);
    }
    let line = u64::from(state.line_amount.max(1));
    let stop = last_stop(&state.gathered);
    let last = beside(random, stop.div_ceil(line));
    state.waiting = Waiting::VerticalStops {
        channel: a_channel_number(random),
        last,
    };
    let count = state.gathered.count;
    if (1..=LINES.most).contains(&count) && random.percent(30) {
        let reach = u32::from(last).wrapping_mul(state.line_amount);
        let stop = random.pick(&[reach, reach.wrapping_add(1), reach.wrapping_sub(1)]);
        state.gathered.stops[count - 1] = stop;
    }
}

/// A list being dropped, of which any byte may be the last, with any list in the
/// gathering place.
fn await_dropped(random: &mut Random, state: &mut State) {
    if random.flag() {
        change_list(random, &mut state.gathered, LINES);
    }
    state.waiting = Waiting::DroppedStops {
        last: match random.below(3) {
            0 => random.pick(&[0, 1, 254, 255]),
            _ => random.byte(),
        },
    };
}

fn last_stop(list: &Stops) -> u64 {
    let count = list.count.min(list.stops.len());
    list.stops[..count].last().map_or(0, |&stop| stop.into())
}

/// A byte at, above or below a number.
fn beside(random: &mut Random, number: u64) -> u8 {
    match random.below(8) {
        0 => random.byte(),
        1 => number.saturating_sub(1).min(255) as u8,
        2 => (number + 1).min(255) as u8,
        3 => random.between(number.min(255), 255) as u8,
        _ => number.min(255) as u8,
    }
}

/// Vertical stops as ESC B sets them at this line amount.
fn lines(random: &mut Random, line_amount: u32) -> Stops {
    let bytes = Limits {
        highest: 255,
        ..LINES
    };
    let mut list = ascending(random, bytes);
    for stop in &mut list.stops {
        *stop = stop.wrapping_mul(line_amount);
    }
    list
}

/// A mode of images, listed or not.
pub fn a_mode(random: &mut Random) -> u8 {
    match random.below(10) {
        0 => random.byte(),
        1 => random.pick(&[5, 7, 31, 34, 37, 41, 71, 72, 73, 255]),
        2..=4 => random.pick(&ONE_BYTE_MODES),
        _ => random.pick(&THREE_BYTE_MODES),
    }
}

/// The columns of ESC *, after a listed mode or another.
fn await_columns_of_image(random: &mut Random, state: &mut State) {
    let mode = a_mode(random);
    state.waiting = match random.flag() {
        true => Waiting::ColumnsLow { mode },
        false => Waiting::ColumnsHigh {
            mode,
            low: random.byte(),
        },
    };
}

/// Image data, with any byte of a column, in modes of three bytes and others.
fn await_image(random: &mut Random, state: &mut State) {
    let mode = a_mode(random);
    let nth = match THREE_BYTE_MODES.contains(&mode) {
        true => random.pick(&[1, 2, 3, 1, 2, 3, 1, 2, 3, 0, 4, 255]),
        false => random.pick(&[1, 1, 1, 1, 1, 1, 0, 2, 3, 4]),
    };
    state.waiting = Waiting::Image {
        mode,
        nth,
        columns: random.pick(&[1, 2, 7, 300, 65_534, 65_535, 0, 65_536, u32::MAX]),
    };
}

/// Something waited for, inside the bounds.
fn await_inside(random: &mut Random, state: &mut State) {
    for _ in 0..20 {
        match random.below(8) {
            0 => await_arguments(random, state),
            1..=3 => await_list(random, state),
            4 => await_image(random, state),
            5 => await_columns_of_image(random, state),
            6 => await_dropped(random, state),
            _ => state.waiting = random.pick(&INSIDE_ESCAPES),
        }
        if state.accepted() {
            return;
        }
    }
    state.waiting = Waiting::Nothing;
}
