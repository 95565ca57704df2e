//! Inputs to measure with, of about so many bytes, always the same.

use crate::random::Random;

/// The names of the inputs.
pub const NAMES: [&str; 7] = [
    "letters", "text", "styled", "images", "sketches", "card", "forms",
];

/// A slot card: two lines with seven tab stops.
const CARD: &[u8] = b"\x1BD\x0A\x14\x1E\x28\x32\x3C\x46\x00\
    SLOT\t1\t2\t3\t4\t5\t6\t7\r\n\
    STATE\tLOCKED\tLOCKED\tLOCKED\tRELEASED\tLOCKED\tLOCKED\tLOCKED\r\n\x0C";

/// The input of this name, at least so long, and not cut inside a command.
pub fn input(name: &str, length: usize) -> Option<Vec<u8>> {
    let add: fn(&mut Random, &mut Vec<u8>) = match name {
        "letters" => line_of_letters,
        "text" => line_of_text,
        "styled" => line_of_styles,
        "images" => line_of_images,
        "sketches" => line_of_sketches,
        "card" => |_, to| to.extend(CARD),
        "forms" => form,
        _ => return None,
    };
    let mut random = Random::new(300);
    let mut bytes = Vec::with_capacity(length + 4_096);
    while bytes.len() < length {
        add(&mut random, &mut bytes);
    }
    Some(bytes)
}

fn letters(random: &mut Random, count: u64, to: &mut Vec<u8>) {
    to.extend((0..count).map(|_| random.between(0x20, 0x7E) as u8));
}

/// Up to 80 letters, CR and LF.
fn line_of_letters(random: &mut Random, to: &mut Vec<u8>) {
    let count = random.between(20, 80);
    letters(random, count, to);
    to.extend(b"\r\n");
}

/// Words with tabs and styles between them, CR and LF.
fn line_of_text(random: &mut Random, to: &mut Vec<u8>) {
    const STYLES: [&[u8]; 12] = [
        b"\x1BE", b"\x1BF", b"\x1BG", b"\x1BH", b"\x1B4", b"\x1B5", b"\x1B-1", b"\x1B-0", b"\x1BM",
        b"\x1BP", b"\x0F", b"\x12",
    ];
    for _ in 0..random.between(3, 6) {
        to.extend(random.pick(&STYLES));
        let count = random.between(2, 9);
        letters(random, count, to);
        to.push(b'\t');
    }
    to.extend(b"\r\n");
    if random.percent(5) {
        to.extend(b"\x1BD\x08\x10\x18\x20\x28\x30\x38\x40\x00\x1B!\x00\x0C");
    }
}

/// Words, each in a style, width or pitch of its own, CR and LF.
fn line_of_styles(random: &mut Random, to: &mut Vec<u8>) {
    const STYLES: [&[u8]; 12] = [
        b"\x1B!\x00",
        b"\x1B!\x08",
        b"\x1B!\x41",
        b"\x1B!\x84",
        b"\x1B-1",
        b"\x1B-0",
        b"\x1BW1",
        b"\x1BW0",
        b"\x0E",
        b"\x1BS0",
        b"\x1BT",
        b"\x1Bp0",
    ];
    for _ in 0..random.between(3, 8) {
        to.extend(random.pick(&STYLES));
        let count = random.between(2, 9);
        letters(random, count, to);
    }
    to.extend(b"\r\n");
}

/// A form: all eight vertical channels with their sixteen stops, then fields,
/// each in a channel of its own, and FF.
fn form(random: &mut Random, to: &mut Vec<u8>) {
    to.extend(b"\x1B@");
    for channel in 0..8 {
        to.extend([0x1B, b'b', channel]);
        to.extend((1..=16).map(|stop| 3 * stop + channel));
        to.push(0);
    }
    for _ in 0..random.between(20, 40) {
        to.extend([0x1B, b'/', random.below(8) as u8, 0x0B]);
        let count = random.between(2, 9);
        letters(random, count, to);
    }
    to.push(0x0C);
}

/// One image of up to the width of the paper, CR and a feed of 24/180 inch.
fn line_of_images(random: &mut Random, to: &mut Vec<u8>) {
    let (command, widest) = random.pick(&[(b'K', 480), (b'L', 960), (b'Y', 960), (b'Z', 1_920)]);
    image(random, &[0x1B, command], (widest, 1), to);
}

/// The same by ESC *, in a mode of three bytes a column.
fn line_of_sketches(random: &mut Random, to: &mut Vec<u8>) {
    const MODES: [(u8, u64); 5] = [(32, 480), (33, 960), (38, 720), (39, 1_440), (40, 2_880)];
    let (mode, widest) = random.pick(&MODES);
    image(random, &[0x1B, b'*', mode], (widest, 3), to);
}

/// An image so opened, half to the whole of the widest, of columns of so many
/// bytes, CR and a feed.
fn image(random: &mut Random, opening: &[u8], (widest, bytes): (u64, u64), to: &mut Vec<u8>) {
    let columns = random.between(widest / 2, widest);
    to.extend(opening);
    to.extend((columns as u16).to_le_bytes());
    to.extend((0..bytes * columns).map(|_| random.byte()));
    to.extend(b"\r\x1BJ\x18");
}
