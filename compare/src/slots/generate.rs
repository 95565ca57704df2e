//! Lists of records, made up or of generated cards, and ranges of columns to
//! ask for.

use super::Question;
use crate::calls::room_for;
use crate::generate::input;
use crate::random::Random;
use crate::record::{
    self, Record, ADVANCE, BYTE, COLUMN, COUNTRY, FONT, RECORD_SIZE, REST, ROW, STYLE,
};
use ierbulosc::{Settings, State};

/// Of a hundred questions, those about a card.
const CARDS: u64 = 10;

/// Marks that are no record's: beside one in a byte, turned round, in other
/// letters, or of two records.
const UNKNOWN: [&[u8; 2]; 20] = [
    b"TY", b"SX", b"UX", b"TW", b"XT", b"tx", b"Tx", b"TN", b"TL", b"LM", b"LO", b"MN", b"NL",
    b"ln", b"LX", b"CM", b"DL", b"LC", b"LL", b"CN",
];

/// A question: a made-up list, or the records of a card.
pub fn question(random: &mut Random) -> Question {
    match random.percent(CARDS) {
        true => of_card(random),
        false => made_up(random),
    }
}

/// A made-up list, of any marks and numbers.
pub fn made_up(random: &mut Random) -> Question {
    let (from, to) = range(random);
    let habit = Habit::any(random, from, to);
    let longest = match random.below(200) {
        0 => 2_000,
        _ => random.pick(&[1, 4, 12, 30, 60]),
    };
    let mut records = Vec::new();
    for _ in 0..random.below(longest + 1) {
        records.extend(habit.record(random));
    }
    if random.percent(8) {
        let length = match random.below(3) {
            0 => 1,
            1 => RECORD_SIZE - 1,
            _ => random.between(1, RECORD_SIZE as u64 - 1) as usize,
        };
        records.extend(&habit.record(random)[..length]);
    }
    Question { records, from, to }
}

/// A range of columns, at the limits and elsewhere, some with their ends the
/// wrong way round.
fn range(random: &mut Random) -> (u16, u16) {
    let from = match random.below(6) {
        0 => random.pick(&[0, 0, 1, 65_534, 65_535]),
        1 => random.pick(&[254, 255, 256, 257, 32_767, 32_768]),
        2 => random.number() as u16,
        _ => random.below(2_400) as u16,
    };
    let to = match random.below(12) {
        0..=2 => from,
        3 => from.saturating_add(1),
        4 => from.saturating_sub(1),
        5 => random.number() as u16,
        6 => 65_535,
        _ => from.saturating_add(random.between(2, 300) as u16),
    };
    match random.below(12) {
        0 => (to, from),
        _ => (from, to),
    }
}

/// How a made-up list is: what its records are, and where they stand.
struct Habit {
    from: u16,
    to: u16,
    /// The weights of TX, LN of no pages, LN of pages, CL, IM and NO, and
    /// marks of no record.
    marks: [u64; 6],
    /// Of a hundred columns, those in the range.
    inside: u64,
    /// Of a hundred rows, styles, advances and rests, those that would be columns
    /// in the range.
    alike: u64,
}

impl Habit {
    fn any(random: &mut Random, from: u16, to: u16) -> Habit {
        Habit {
            from,
            to,
            marks: [
                random.pick(&[10, 40, 70]),
                random.pick(&[0, 5, 20]),
                random.pick(&[0, 0, 1, 8]),
                random.pick(&[0, 3, 10, 30]),
                random.pick(&[0, 5, 20]),
                random.pick(&[0, 5, 20]),
            ],
            inside: random.pick(&[0, 5, 15, 40, 90]),
            alike: random.pick(&[0, 50, 100]),
        }
    }

    fn record(&self, random: &mut Random) -> Record {
        let any = random.number().to_le_bytes();
        let mut byte = any[0];
        let mark = match random.weighted(&self.marks) {
            0 => b"TX",
            1 => {
                byte = 0;
                b"LN"
            }
            2 => {
                byte = random.pick(&[1, 1, 2, 128, 255, 255]);
                b"LN"
            }
            3 => b"CL",
            4 => random.pick(&[b"IM", b"NO"]),
            _ => random.pick(&UNKNOWN),
        };
        let column = match random.percent(self.inside) {
            true => self.column_inside(random),
            false => self.column_beside(random),
        };
        let mut record = record::marked(*mark);
        record::set(&mut record, COLUMN, column);
        record[BYTE] = byte;
        record[FONT] = any[1];
        record[COUNTRY..ADVANCE].copy_from_slice(&any[2..4]);
        for field in [ROW, STYLE, ADVANCE, REST] {
            record::set(&mut record, field, self.number(random));
        }
        record
    }

    /// A column at an end of the range or within it.
    fn column_inside(&self, random: &mut Random) -> u16 {
        match random.below(4) {
            0 => self.from,
            1 => self.to,
            _ => {
                let (low, high) = (self.from.min(self.to), self.from.max(self.to));
                random.between(low.into(), high.into()) as u16
            }
        }
    }

    /// A column beside the range, or any.
    fn column_beside(&self, random: &mut Random) -> u16 {
        match random.below(12) {
            0..=2 => self.from.wrapping_sub(1),
            3..=5 => self.to.wrapping_add(1),
            6 => self.from.swap_bytes(),
            7 => self.to.swap_bytes(),
            8 => self.from ^ 0x100,
            9 => random.pick(&[0, 65_535]),
            _ => random.number() as u16,
        }
    }

    /// A row, style, advance or rest.
    fn number(&self, random: &mut Random) -> u16 {
        match random.percent(self.alike) {
            true => self.column_inside(random),
            false => random.number() as u16,
        }
    }
}

/// The records that the library writes for generated inputs, asked for a range
/// at the column of one of its letters, or beside it.
pub fn of_card(random: &mut Random) -> Question {
    let mut records = Vec::new();
    for _ in 0..random.pick(&[1, 1, 1, 2]) {
        add_card(random, &mut records);
    }
    let column = column_of_a_letter(random, &records);
    let from = match random.below(6) {
        0 => column.saturating_add(1),
        1 => column.saturating_sub(1),
        2 => column.saturating_sub(300),
        _ => column,
    };
    let to = match random.below(6) {
        0 => from,
        1 => column.saturating_sub(1),
        2 => from.saturating_add(30),
        3 => from.saturating_add(300),
        _ => column,
    };
    Question { records, from, to }
}

/// Adds the records of one generated input.
fn add_card(random: &mut Random, to: &mut Vec<u8>) {
    let settings = Settings {
        resolution: random.pick(&[300, 203]),
        auto_feed: random.pick(&[0, 1]),
        width: random.pick(&[28_800, 28_800, 28_800, 7_200, 7_559]),
    };
    let (_, mut state) = State::start(&settings);
    let longest = random.pick(&[4, 12, 40]);
    let phrases = random.between(1, longest);
    let input = input(random, phrases);
    let mut out = vec![0; room_for(input.len())];
    let report = state.read(&input, usize::MAX, &mut out);
    to.extend_from_slice(&out[..report.written]);
}

/// The column of a letter, mostly of one of the newest.
fn column_of_a_letter(random: &mut Random, records: &[u8]) -> u16 {
    let letters = records.chunks_exact(RECORD_SIZE).rev();
    let letters: Vec<&[u8]> = letters.filter(|record| record[..2] == *b"TX").collect();
    let newest = match random.flag() {
        true => letters.len(),
        false => letters.len().min(10),
    };
    match letters.get(random.below(newest as u64) as usize) {
        Some(record) => record::number(record, COLUMN),
        None => random.pick(&[0, 300, 65_535]),
    }
}
