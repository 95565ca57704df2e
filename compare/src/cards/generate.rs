//! Lists of letters: good ones, and some that break a rule at its limit or far
//! from it, with rooms about the one asked for.

use super::Card;
use crate::random::Random;
use ierbulosc::{card_room, Letter, LETTER_SIZE};

/// Of a hundred lists, those with a bad letter.
const BAD: u64 = 35;
/// Of a hundred lists, those that end within a letter.
const CUT: u64 = 6;

/// The last place, across and down.
const LAST_ACROSS: u16 = 28_440;
const LAST_DOWN: u16 = 39_580;

/// A list of letters, its room, and how it is read.
pub fn card(random: &mut Random) -> Card {
    let longest = match random.below(300) {
        0 => 400,
        _ => random.pick(&[0, 1, 2, 4, 12]),
    };
    let count = random.below(longest + 1);
    let mut letters = good(random, count);
    if random.percent(BAD) {
        for _ in 0..random.pick(&[1, 1, 2]) {
            spoil(random, &mut letters);
        }
    }
    let mut bytes: Vec<u8> = letters.iter().flat_map(|one| one.to_bytes()).collect();
    if random.percent(CUT) {
        let length = random.between(1, LETTER_SIZE as u64 - 1) as usize;
        bytes.extend(&Letter::new(b'A', 0, LAST_DOWN).to_bytes()[..length]);
    }
    Card {
        letters: bytes,
        room: room(random, letters.len()),
        piece: match random.below(3) {
            0 => 1_000_000,
            _ => random.between(1, 40) as usize,
        },
    }
}

/// Letters that can be written.
fn good(random: &mut Random, count: u64) -> Vec<Letter> {
    let mut down = random.pick(&[0, 0, 20, 5_100, LAST_DOWN]);
    let mut letters = Vec::new();
    for _ in 0..count {
        let byte = match random.below(6) {
            0 => random.pick(b" ~@$\\J"),
            _ => random.between(0x20, 0x7E) as u8,
        };
        let across = match random.below(4) {
            0 => random.pick(&[0, 20, 40, 60, 80, 15_360]),
            1 => random.pick(&[LAST_ACROSS, LAST_ACROSS - 20, LAST_ACROSS - 40]),
            _ => 20 * random.between(0, u64::from(LAST_ACROSS) / 20) as u16,
        };
        letters.push(Letter::new(byte, across, down));
        let further: u16 = match random.below(4) {
            0 | 1 => 0,
            2 => random.pick(&[20, 600, 5_080, 5_100, 5_120, 10_200, 10_220]),
            _ => 20 * random.below(2_000) as u16,
        };
        down = down.saturating_add(further).min(LAST_DOWN);
    }
    letters
}

/// Breaks a rule in one letter, at its limit or anywhere.
fn spoil(random: &mut Random, letters: &mut [Letter]) {
    let at = random.below(letters.len() as u64) as usize;
    let above = match at {
        0 => 0,
        _ => letters[at - 1].down(),
    };
    let Some(letter) = letters.get_mut(at) else {
        return;
    };
    let (mut byte, mut across, mut down) = (letter.byte(), letter.across(), letter.down());
    let what = random.between(1, 7);
    if what & 1 > 0 {
        byte = match random.below(3) {
            0 => random.byte(),
            _ => random.pick(&[0x1F, 0x7F, 0x00, 0x1B, 0x80, 0xA0, 0xFE, 0xFF]),
        };
    }
    if what & 2 > 0 {
        across = match random.below(4) {
            0 => random.number() as u16,
            1 => across.wrapping_add(random.between(1, 19) as u16),
            _ => random.pick(&[LAST_ACROSS + 20, LAST_ACROSS + 1, 28_800, 65_520, 65_535]),
        };
    }
    if what & 4 > 0 {
        down = match random.below(5) {
            0 => random.number() as u16,
            1 => down.wrapping_add(random.between(1, 19) as u16),
            2 => above.saturating_sub(20),
            3 => 20 * random.below(u64::from(above) / 20 + 1) as u16,
            _ => random.pick(&[LAST_DOWN + 20, LAST_DOWN + 1, 65_520, 65_535]),
        };
    }
    *letter = Letter::new(byte, across, down);
}

/// The room asked for, or about it.
fn room(random: &mut Random, letters: usize) -> usize {
    let asked = card_room(letters);
    match random.below(12) {
        0 => asked - 1,
        1 => asked + 1,
        2 => random.below(asked as u64) as usize,
        3 => random.pick(&[0, 1, 2]),
        4 => asked + 1_000,
        _ => asked,
    }
}
