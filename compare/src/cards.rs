//! Writing a card: the library against the plain writer on the same list of
//! letters, and what both wrote read back by all readers, in pieces, at both
//! resolutions.

pub mod generate;
pub mod shortest;
pub mod text;

use crate::calls::{self, room_for, Call, FILL};
use crate::hold::{self, Case};
use crate::record::{self, is_feed, rounded, Record};
use crate::record::{ADVANCE, BYTE, COLUMN, RECORD_SIZE, REST, ROW};
use crate::WIDEST;
use ierbulosc::interface::escp_write;
use ierbulosc::{Settings, LETTER_SIZE};

/// A list of letters, the room to write it to, and how many bytes of the card
/// are read at a time.
#[derive(Clone, PartialEq, Eq, Debug)]
pub struct Card {
    pub letters: Vec<u8>,
    pub room: usize,
    pub piece: usize,
}

/// The number that came back, the count, and the whole output, which held
/// `FILL` before the call.
#[derive(Clone, PartialEq, Eq, Debug)]
pub struct Answer {
    pub number: u8,
    pub written: usize,
    pub out: Vec<u8>,
}

/// What both came back with.
#[derive(Clone, PartialEq, Eq, Debug)]
pub struct Answers {
    pub plain: Answer,
    pub proved: Answer,
    /// Whether the library wrote to the list, or beside it, the output or the
    /// count.
    pub touched: bool,
}

/// How a card fails.
#[derive(Clone, PartialEq, Eq, Debug)]
pub enum Difference {
    /// The two writers came back otherwise.
    Written(Box<Answers>),
    /// The readers differ on what was written.
    Read(Box<hold::Difference>),
    /// They read something else than the letters, at so many dots.
    Letters(u32),
}

/// What was done so far.
#[derive(Clone, Copy, PartialEq, Eq, Debug, Default)]
pub struct Tally {
    pub refused: u64,
    pub letters: u64,
    pub bytes: u64,
}

/// Writes the card with both, and reads it; how it fails, if it does.
pub fn difference(card: &Card, tally: &mut Tally) -> Option<Difference> {
    let answers = answers(card);
    if answers.plain != answers.proved || answers.touched {
        return Some(Difference::Written(Box::new(answers)));
    }
    let Answer {
        number,
        written,
        out,
    } = answers.proved;
    if number != plain_reader::WRITTEN {
        tally.refused += 1;
        return None;
    }
    tally.letters += (card.letters.len() / LETTER_SIZE) as u64;
    tally.bytes += written as u64;
    let mut dots = [300, 203].into_iter();
    dots.find_map(|dots| misread(card, &out[..written], dots))
}

/// What both writers come back with.
pub fn answers(card: &Card) -> Answers {
    let (proved, touched) = proved(card);
    Answers {
        plain: plain(card),
        proved,
        touched,
    }
}

pub fn plain(card: &Card) -> Answer {
    let (number, bytes) = plain_reader::write(&card.letters, card.room);
    let mut out = vec![FILL; card.room];
    out[..bytes.len()].copy_from_slice(&bytes);
    Answer {
        number,
        written: bytes.len(),
        out,
    }
}

/// What a count holds before the call: nothing that could come back.
const GARBAGE: usize = usize::MAX / 3;

/// What stands before and after list and output: letters that could be
/// written.
const BESIDE: [u8; LETTER_SIZE] = [b'A', 20, 0, 20, 0];

/// What the library comes back with, and whether it wrote to the list, or
/// beside it, the output or the count.
fn proved(card: &Card) -> (Answer, bool) {
    let held = [&BESIDE, &card.letters[..], &BESIDE].concat();
    let mut list = held.clone();
    let mut out = [&BESIDE, &vec![FILL; card.room][..], &BESIDE].concat();
    let mut counts = [GARBAGE; 3];
    // SAFETY: list and output are good for their lengths, between what stands
    // beside them; the count is the second of three. All pointers are to what
    // no one else holds during the call, so that a write beside them is seen,
    // too. The library keeps no pointer.
    let number = unsafe {
        escp_write(
            list.as_mut_ptr().add(LETTER_SIZE),
            card.letters.len(),
            out.as_mut_ptr().add(LETTER_SIZE),
            card.room,
            counts.as_mut_ptr().add(1),
        )
    };
    let [before, written, after] = counts;
    let beside = [&out[..LETTER_SIZE], &out[LETTER_SIZE + card.room..]];
    let touched = list != held || beside != [&BESIDE; 2] || [before, after] != [GARBAGE; 2];
    let answer = Answer {
        number,
        written,
        out: out[LETTER_SIZE..][..card.room].to_vec(),
    };
    (answer, touched)
}

/// The start and the reading calls of a card in pieces.
fn reading(card: &Card, bytes: &[u8], resolution: u32) -> Vec<Call> {
    let start = Call::Start(Settings {
        resolution,
        auto_feed: 0,
        width: WIDEST,
    });
    let pieces = bytes.chunks(card.piece.max(1)).map(|piece| Call::Read {
        input: piece.to_vec(),
        allowance: usize::MAX,
        room: room_for(piece.len()),
    });
    std::iter::once(start).chain(pieces).collect()
}

/// How reading the card fails at so many dots, if it does: the readers are held
/// against each other and against the reckoning of exact places, then what
/// they read against the letters.
fn misread(card: &Card, bytes: &[u8], resolution: u32) -> Option<Difference> {
    let case = Case {
        state: None,
        calls: reading(card, bytes, resolution),
    };
    if let Some(found) = hold::difference(&case, &mut hold::Tally::default()) {
        return Some(Difference::Read(Box::new(found)));
    }
    let outcomes = calls::run(&case.calls);
    let to_the_end = outcomes.iter().all(|outcome| outcome.answer == 0);
    let waiting = outcomes.last().map(|outcome| &outcome.state.waiting);
    let records = outcomes.iter();
    let records = records.flat_map(|outcome| outcome.out[..outcome.written].chunks(RECORD_SIZE));
    let mut records = records.map(<[u8]>::to_vec);
    let top = records.next().is_some_and(|first| is_feed(&first, 255));
    let others: Vec<Vec<u8>> = records.filter(|record| !is_feed(record, 0)).collect();
    let letters = card.letters.chunks_exact(LETTER_SIZE);
    let due: Vec<Record> = letters.map(|letter| text(letter, resolution)).collect();
    let nothing = waiting == Some(&plain_reader::Waiting::Nothing);
    let good = to_the_end && nothing && top && others == due;
    (!good).then_some(Difference::Letters(resolution))
}

/// The TX of a letter, plain and in 10 cpi.
fn text(letter: &[u8], resolution: u32) -> Record {
    let [across, down] = [1, 3].map(|at| i64::from(letter[at]) + 256 * i64::from(letter[at + 1]));
    let down_dots = match resolution {
        203 => 200,
        dots => dots.into(),
    };
    let (column, rest) = rounded(across, resolution.into());
    let (row, _) = rounded(down, down_dots);
    let mut record = record::marked(*b"TX");
    record::set(&mut record, COLUMN, column);
    record::set(&mut record, ROW, row);
    record[BYTE] = letter[0];
    record::set(&mut record, ADVANCE, 360);
    record::set(&mut record, REST, rest as u16);
    record
}
