//! Generated inputs, mostly well-formed commands with arguments at and beside
//! the limits of the rules.

use crate::random::Random;

const ESC: u8 = 0x1B;
const SI: u8 = 0x0F;
const DC4: u8 = 0x14;
const CONTROLS: [u8; 10] = [8, 9, 10, 11, 12, 13, 14, 15, 18, 20];
const PLAIN_ESCAPES: &[u8] = b"022OPPMMggEFGH4455T6677\x0E\x0F\x0E\x0F";
const ONE_ARGUMENT: &[u8] = b"33A++JJJNNllQQpSxWWw-%tRqk  !!/";

/// Numbers beside which a rule changes, for any one-byte argument.
const EDGES: [u8; 26] = [
    0, 1, 2, 3, 4, 5, 6, 12, 13, 14, 20, 21, 0x30, 0x31, 0x32, 0x40, 0x41, 79, 80, 84, 85, 86, 126,
    127, 128, 255,
];

/// Line amounts and numbers of lines whose products are 79,180, 79,200,
/// 79,210, 3,580, 3,600 and 3,610.
const NEAR_PAGES: [(u8, u8, u8); 6] = [
    (b'+', 74, 107),
    (b'3', 36, 110),
    (b'+', 89, 89),
    (b'3', 179, 1),
    (b'3', 180, 1),
    (b'+', 19, 19),
];

/// Third bytes of ESC i: beside "a" and "S", like them, or of other commands.
const THIRD_BYTES: [u8; 18] = [
    0x60, 0x62, 0x52, 0x54, b's', b'A', b'i', b'L', b'B', b'@', ESC, 0x9B, 0, 10, 0x8A, 0x30, 0xE1,
    0xD3,
];

/// The modes of ESC * with one byte a column, and with three.
pub const ONE_BYTE_MODES: [u8; 6] = [0, 1, 2, 3, 4, 6];
pub const THREE_BYTE_MODES: [u8; 5] = [32, 33, 38, 39, 40];

/// Modes of ESC * beside the listed ones, of other printers, or of other
/// commands.
const OTHER_MODES: [u8; 20] = [
    5, 7, 8, 31, 34, 35, 36, 37, 41, 64, 71, 72, 73, 0x30, 0x80, 0xA0, 0xA7, 255, ESC, b'@',
];

/// Vertical channels, and numbers beside them, far from them, or as a digit.
pub const CHANNELS: [u8; 8] = [0, 1, 2, 3, 4, 5, 6, 7];
pub const NO_CHANNELS: [u8; 6] = [8, 9, 16, b'0', b'7', 255];

/// How many columns fit in 360 units, in one mode or another.
const FIT_IN_A_LETTER: [u16; 7] = [6, 8, 9, 12, 18, 24, 36];

/// An input of so many phrases.
pub fn input(random: &mut Random, phrases: u64) -> Vec<u8> {
    let mut bytes = Vec::new();
    for _ in 0..phrases {
        phrase(random, &mut bytes);
    }
    bytes
}

/// Adds one phrase: a run of letters, a command, or a telling group of them.
pub fn phrase(random: &mut Random, to: &mut Vec<u8>) {
    match random.weighted(&[20, 22, 12, 22, 10, 8, 6, 4, 2, 3, 2, 2, 4, 4, 2, 4, 1]) {
        0 => letters(random, to),
        1 => to.push(random.pick(&CONTROLS)),
        2 => to.extend([ESC, random.pick(PLAIN_ESCAPES)]),
        3 => one_argument(random, to),
        4 => across_moves(random, to),
        5 => image(random, to),
        6 => stop_list(random, to),
        7 => page(random, to),
        8 => close_margins(random, to),
        9 => upper_codes(random, to),
        10 => random_bytes(random, to),
        11 => stops_past_the_edge(random, to),
        12 => mode_or_status(random, to),
        13 => image_mode(random, to),
        14 => image_past_the_margin(random, to),
        15 => channels(random, to),
        _ => to.extend([ESC, b'@']),
    }
}

fn letters(random: &mut Random, to: &mut Vec<u8>) {
    let longest = random.pick(&[1, 2, 4, 12, 12, 90]);
    for _ in 0..random.between(1, longest) {
        let letter = match random.below(12) {
            0 => random.pick(&[0x20, 0x7E, 0xA0, 0xFF]),
            1 => random.between(0xA0, 0xFF) as u8,
            _ => random.between(0x20, 0x7E) as u8,
        };
        to.push(letter);
    }
}

fn random_bytes(random: &mut Random, to: &mut Vec<u8>) {
    for _ in 0..random.between(1, 6) {
        to.push(random.byte());
    }
    if random.flag() {
        to.extend([ESC, random.byte()]);
    }
}

fn one_argument(random: &mut Random, to: &mut Vec<u8>) {
    let command = random.pick(ONE_ARGUMENT);
    to.extend([ESC, command, argument(random, command)]);
}

/// An argument at, beside or far from the limits of its command.
pub fn argument(random: &mut Random, command: u8) -> u8 {
    match random.below(10) {
        0 => random.byte(),
        1 => random.pick(&EDGES),
        _ => usual_argument(random, command),
    }
}

fn usual_argument(random: &mut Random, command: u8) -> u8 {
    match command {
        b'3' | b'+' => random.pick(&[0, 1, 7, 18, 20, 24, 30, 36, 60, 120, 180, 254, 255]),
        b'A' => random.pick(&[0, 1, 5, 10, 12, 60, 84, 85, 86, 87]),
        b'J' => random.pick(&[0, 1, 3, 30, 60, 127, 128, 180, 200, 254, 255]),
        b'N' => random.pick(&[0, 1, 2, 5, 6, 10, 59, 60, 61, 126, 127, 128]),
        b'l' => random.pick(&[0, 0, 1, 2, 3, 5, 8, 10, 30, 78, 79, 80, 81]),
        b'Q' => random.pick(&[1, 2, 3, 6, 10, 40, 79, 80, 80, 81, 95, 96, 97, 120, 160]),
        b'p' | b'S' | b'x' | b'W' | b'w' | b'-' | b'%' => {
            random.pick(&[0, 1, 0x30, 0x31, 0, 1, 0x30, 0x31, 2, 0x32])
        }
        b't' => random.pick(&[0, 1, 0, 1, 2, 0x30]),
        b'R' => random.pick(&[0, 1, 7, 12, 13, 14, 0x3F, 0x40, 0x41]),
        b'q' => random.pick(&[0, 1, 2, 3, 4, 0x30, 0x33]),
        b' ' => random.pick(&[0, 0, 0, 1, 2, 9, 126, 127, 128, 129, 255]),
        b'!' => format_argument(random),
        b'/' => channel(random),
        _ => random.byte(),
    }
}

/// An ESC ! argument: any, or one bit set or one clear.
fn format_argument(random: &mut Random) -> u8 {
    let bit = 1 << random.below(8);
    match random.below(4) {
        0 => 0,
        1 => bit,
        2 => !bit,
        _ => random.byte(),
    }
}

/// ESC $ or ESC \ with a near or a far place.
fn across_moves(random: &mut Random, to: &mut Vec<u8>) {
    if random.flag() {
        to.extend([ESC, b'$']);
        to.extend(absolute_place(random).to_le_bytes());
    } else {
        to.extend([ESC, b'\\']);
        to.extend(relative_move(random).to_le_bytes());
    }
}

fn absolute_place(random: &mut Random) -> u16 {
    match random.below(20) {
        0..=9 => random.below(490) as u16,
        10 => random.pick(&[814, 815, 816, 0x7FFF, 0xFFFF]),
        _ => random.pick(&[0, 1, 6, 59, 60, 240, 479, 480, 481]),
    }
}

fn relative_move(random: &mut Random) -> i16 {
    let size = match random.below(20) {
        0..=9 => random.below(80) as i16,
        10 => random.pick(&[i16::MAX, i16::MIN, i16::MIN + 1]),
        11..=13 => random.pick(&[959, 960, 961, 1_439, 1_440, 1_441]),
        _ => random.pick(&[0, 1, 12, 18, 24, 36]),
    };
    if random.flag() {
        size
    } else {
        size.wrapping_neg()
    }
}

/// An image with its data, now and then too little of it.
fn image(random: &mut Random, to: &mut Vec<u8>) {
    let columns = match random.below(24) {
        0..=2 => 0,
        3..=6 => 1,
        7 => random.pick(&[255, 256, 257]),
        8 if random.flag() => random.pick(&[479, 480, 481, 959, 960, 961]),
        9 if random.percent(20) => random.pick(&[1_919, 1_920, 1_921, 32_768, 65_535, 65_535]),
        _ => random.between(2, 12) as u16,
    };
    image_of(random, columns, to);
}

/// An image of so many columns, by ESC K, L, Y, Z or ESC *, with its data or,
/// now and then, too little of it, cut anywhere.
fn image_of(random: &mut Random, columns: u16, to: &mut Vec<u8>) {
    let bytes = match random.below(6) {
        0 | 1 => {
            to.extend([ESC, random.pick(b"KLYZ")]);
            1
        }
        2 => {
            to.extend([ESC, b'*', random.pick(&ONE_BYTE_MODES)]);
            1
        }
        _ => {
            to.extend([ESC, b'*', random.pick(&THREE_BYTE_MODES)]);
            3
        }
    };
    to.extend(columns.to_le_bytes());
    let whole = bytes * u64::from(columns);
    let data = match random.below(16) {
        0 => whole / 2,
        1 => random.below(whole + 1),
        2 => whole.saturating_sub(random.between(1, bytes)),
        _ => whole.min(3_000),
    };
    let begin = to.len();
    for _ in 0..data {
        to.push(random.byte());
    }
    if data >= 2 && random.flag() {
        to[begin] = ESC;
        to[begin + 1] = b'@';
    }
}

/// ESC * with a mode that may not be listed, now and then cut short, so that
/// what comes next is taken for the rest.
fn image_mode(random: &mut Random, to: &mut Vec<u8>) {
    to.extend([random.pick(&[ESC, ESC, ESC, 0x9B]), b'*']);
    match random.below(10) {
        0 => return,
        1..=5 => to.push(random.byte()),
        6 | 7 => to.push(random.pick(&OTHER_MODES)),
        8 => to.push(random.pick(&ONE_BYTE_MODES)),
        _ => to.push(random.pick(&THREE_BYTE_MODES)),
    }
    match random.below(8) {
        0 => {}
        1 => to.push(random.pick(&[0, 1, 2, 7, b'A', ESC, 255])),
        _ => to.extend([random.below(4) as u8, 0]),
    }
}

/// Margins close together, and an image whose columns end beside the right one.
fn image_past_the_margin(random: &mut Random, to: &mut Vec<u8>) {
    let left = random.pick(&[0, 0, 1, 5, 78]);
    let right = left + random.pick(&[1, 1, 1, 2]);
    to.extend([ESC, b'!', 0, ESC, b' ', 0, DC4, ESC, b'l', 0]);
    to.extend([ESC, b'Q', right, ESC, b'l', left]);
    if random.percent(30) {
        to.extend([ESC, b'\\', random.between(1, 20) as u8, 0]);
    }
    let columns = random.pick(&FIT_IN_A_LETTER) - 1 + random.below(4) as u16;
    image_of(random, columns, to);
    if random.percent(70) {
        to.extend([ESC, b'l', 0, ESC, b'Q', 80]);
    }
}

/// ESC D or ESC B and a list.
fn stop_list(random: &mut Random, to: &mut Vec<u8>) {
    to.extend([ESC, random.pick(b"DDB")]);
    list(random, to);
}

/// Vertical channels set, chosen and used, most of them one and the same; now
/// and then a command is cut short, so that what comes next is taken for the
/// rest.
fn channels(random: &mut Random, to: &mut Vec<u8>) {
    let same = channel(random);
    for _ in 0..random.between(1, 5) {
        let channel = match random.percent(70) {
            true => same,
            false => channel(random),
        };
        match random.below(12) {
            0..=4 => {
                to.extend([ESC, b'b', channel]);
                list(random, to);
            }
            5..=8 => to.extend([ESC, b'/', channel]),
            9 => {
                to.extend([ESC, b'B']);
                list(random, to);
            }
            10 => to.extend([random.pick(&[ESC, 0x9B]), random.pick(b"bb/")]),
            _ => to.extend([random.pick(&[ESC, 0x9B]), b'b', channel]),
        }
        for _ in 0..random.below(4) {
            to.push(random.pick(&[11, 11, 11, 10, b'V']));
        }
    }
}

/// A channel, or a number that is none.
fn channel(random: &mut Random) -> u8 {
    match random.below(10) {
        0 | 1 => random.pick(&NO_CHANNELS),
        2 => random.byte(),
        _ => random.pick(&CHANNELS),
    }
}

/// A list of 0 to 40 stops with some ending.
fn list(random: &mut Random, to: &mut Vec<u8>) {
    let stops = match random.below(8) {
        0 => 0,
        1 => random.pick(&[15, 16, 17, 31, 32, 33, 40]),
        _ => random.between(1, 8),
    };
    let step = random.pick(&[1, 2, 2, 5, 9]);
    let mut last = 0u64;
    for _ in 0..stops {
        last = random.between(last + 1, last + step);
        if random.percent(3) {
            last = last.max(0x1B);
        }
        if last > 255 {
            break;
        }
        to.push(last as u8);
    }
    match random.below(12) {
        0 => to.push((last.min(255)) as u8),
        1 => to.push(random.below(last.min(255) + 1) as u8),
        2 => to.extend([ESC, b'@']),
        3 => {}
        _ => to.push(0),
    }
}

/// Page lengths, skips, line amounts and a right margin near their limits, then
/// feeds.
fn page(random: &mut Random, to: &mut Vec<u8>) {
    match random.below(7) {
        0 => {
            let inches = random.pick(&[0, 1, 1, 1, 2, 2, 11, 21, 22, 23, 128, 255]);
            to.extend([ESC, b'C', 0, inches]);
        }
        1 => {
            let line = random.pick(&[0, 1, 2, 10, 12, 60, 62, 63, 85]);
            let lines = random.pick(&[1, 5, 6, 7, 20, 30, 59, 60, 61, 126, 127, 128, 255]);
            to.extend([ESC, b'A', line, ESC, b'C', lines]);
        }
        2 => {
            let first = random.pick(&[104, 105, 106, 178, 179]);
            to.extend([ESC, b'C', 0, 1, ESC, b'J', first, ESC, b'J']);
            to.push(random.between(254, 255) as u8);
        }
        3 => to.extend([ESC, b'N', argument(random, b'N'), ESC, random.pick(b"OJ0")]),
        4 => {
            let (unit, amount, lines) = random.pick(&NEAR_PAGES);
            to.extend([ESC, unit, amount, ESC, b'C', lines]);
        }
        5 => to.extend([SI, ESC, b' ', random.between(64, 66) as u8, ESC, b'Q', 19]),
        _ => to.extend([ESC, b'C', random.pick(&[0, 1, 5, 6, 66, 127, 128])]),
    }
    for _ in 0..random.below(6) {
        match random.below(5) {
            0 => to.push(12),
            1 => to.extend([ESC, b'J', random.pick(&[105, 180, 250, 255])]),
            2 => to.push(11),
            3 => to.extend([ESC, b'J', argument(random, b'J')]),
            _ => to.push(10),
        }
    }
}

/// Vertical stops that a skip or a shorter page may leave past the edge.
fn stops_past_the_edge(random: &mut Random, to: &mut Vec<u8>) {
    let lines = random.pick(&[7, 8, 12, 66]);
    to.extend([ESC, b'2', ESC, b'C', lines, ESC, b'B']);
    for up in [3, 2, 1, 0] {
        if random.flag() {
            to.push(lines - up);
        }
    }
    to.extend([0, ESC, b'N', random.between(1, 3) as u8]);
    if random.percent(20) {
        to.extend([ESC, b'C', 0, 1]);
    }
    for _ in 0..random.between(1, 4) {
        to.push(random.pick(&[11, 11, 10, b'V']));
    }
}

/// Margins close together, and letters that may not fit between them.
fn close_margins(random: &mut Random, to: &mut Vec<u8>) {
    let left = random.pick(&[0, 1, 2, 5, 10, 39, 77, 78, 79]);
    let right = left + random.between(0, 4) as u8;
    to.extend([ESC, b'l', 0, ESC, b'Q', right, ESC, b'l', left]);
    if random.flag() {
        to.push(random.pick(&[14, 15, 18, 20]));
    }
    for _ in 0..random.between(1, 6) {
        match random.below(5) {
            0 => to.push(14),
            1 => to.push(random.pick(&CONTROLS)),
            _ => to.push(random.between(0x41, 0x5A) as u8),
        }
    }
    if random.percent(60) {
        to.extend([ESC, b'!', 0, ESC, b' ', 0, ESC, b'l', 0, ESC, b'Q', 80]);
    }
}

/// ESC i: a command mode, the status, or another third byte; now and then cut
/// short, so that what comes next is taken for the rest.
fn mode_or_status(random: &mut Random, to: &mut Vec<u8>) {
    to.extend([random.pick(&[ESC, ESC, ESC, 0x9B]), b'i']);
    match random.below(12) {
        0..=4 => to.extend([b'a', command_mode(random)]),
        5 => to.push(b'a'),
        6..=7 => to.push(b'S'),
        8 => {}
        9 => to.push(random.byte()),
        _ => to.push(random.pick(&THIRD_BYTES)),
    }
}

/// An argument of ESC i a: 0, what stands for 0 elsewhere, another mode or any.
fn command_mode(random: &mut Random) -> u8 {
    match random.below(8) {
        0..=3 => 0,
        4 => random.pick(&[0x30, 0x80]),
        5 => random.pick(&[1, 3, 4, 0x31, 0x33, 0x34, 255]),
        6 => random.pick(&[ESC, 10, b'a', b'S', b'i']),
        _ => random.byte(),
    }
}

/// ESC 6 or ESC 7 and bytes from 80h to 9Fh.
fn upper_codes(random: &mut Random, to: &mut Vec<u8>) {
    to.extend([ESC, random.pick(b"677")]);
    for _ in 0..random.between(1, 5) {
        match random.below(6) {
            0 => to.push(random.between(0x80, 0x9F) as u8),
            1 => to.extend([0x9B, random.pick(b"E4\x0F\x8F6ii**b/")]),
            2 => to.extend([ESC, random.between(0x80, 0x9F) as u8]),
            _ => to.push(0x80 + random.pick(&CONTROLS)),
        }
    }
}
