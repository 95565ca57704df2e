//! What stands in a range of columns now: asked of the library and of the
//! plain forward reading, on the same list of records.

pub mod generate;
pub mod shortest;
pub mod text;

use crate::record::{self, Record, COLUMN, RECORD_SIZE};
use ierbulosc::interface::{escp_slot, Part};

/// A list of records, and the range of columns asked for.
#[derive(Clone, PartialEq, Eq, Debug)]
pub struct Question {
    pub records: Vec<u8>,
    pub from: u16,
    pub to: u16,
}

/// The number that came back, and the part of the list.
#[derive(Clone, Copy, PartialEq, Eq, Debug)]
pub struct Answer {
    pub number: u8,
    pub start: usize,
    pub length: usize,
}

/// What both came back with.
#[derive(Clone, Copy, PartialEq, Eq, Debug)]
pub struct Answers {
    pub plain: Answer,
    pub proved: Answer,
    /// Whether the library wrote to the list, or beside it or the part.
    pub touched: bool,
}

impl Answers {
    pub fn same(&self) -> bool {
        self.plain == self.proved && !self.touched
    }
}

/// What was asked so far.
#[derive(Clone, Copy, PartialEq, Eq, Debug, Default)]
pub struct Tally {
    pub found: u64,
    pub refused: u64,
    pub records: u64,
}

/// Asks both; the answers if they differ.
pub fn difference(question: &Question, tally: &mut Tally) -> Option<Answers> {
    let answers = answers(question);
    tally.found += u64::from(answers.plain.length > 0);
    tally.refused += u64::from(answers.plain.number == plain_reader::LIST_REFUSED);
    tally.records += (question.records.len() / RECORD_SIZE) as u64;
    (!answers.same()).then_some(answers)
}

/// What both come back with.
pub fn answers(question: &Question) -> Answers {
    let (proved, touched) = proved(question);
    Answers {
        plain: plain(question),
        proved,
        touched,
    }
}

pub fn plain(question: &Question) -> Answer {
    let Question { records, from, to } = question;
    let (number, part) = plain_reader::slot(records, *from, *to);
    Answer {
        number,
        start: part.start,
        length: part.len(),
    }
}

/// What a part holds before the call: nothing that could come back.
const GARBAGE: usize = usize::MAX / 3;
const UNWRITTEN: Part = Part {
    offset: GARBAGE,
    length: GARBAGE,
};

/// What the library comes back with, and whether it wrote to the list or
/// beside it or the part. Before the list and after it stand records that
/// would be found.
fn proved(question: &Question) -> (Answer, bool) {
    let Question { records, from, to } = question;
    let decoy = letter(*from);
    let held = [&decoy[..], records, &decoy].concat();
    let mut list = held.clone();
    let mut parts = [UNWRITTEN; 3];
    // SAFETY: the list is good for its length, which lies between the decoys;
    // the part is the second of three. Both pointers are to what no one else
    // holds during the call, so that a write beside them is seen, too. The
    // library keeps no pointer.
    let number = unsafe {
        let list = list.as_mut_ptr().add(RECORD_SIZE);
        let part = parts.as_mut_ptr().add(1);
        escp_slot(list, records.len(), *from, *to, part)
    };
    let [before, Part { offset, length }, after] = parts;
    let beside = [before.offset, before.length, after.offset, after.length];
    let answer = Answer {
        number,
        start: offset,
        length,
    };
    (answer, list != held || beside != [GARBAGE; 4])
}

/// A TX at this column.
fn letter(column: u16) -> Record {
    let mut record = record::marked(*b"TX");
    record::set(&mut record, COLUMN, column);
    record
}
