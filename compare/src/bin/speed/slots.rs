//! The question what stands in a range of columns: what a call costs, by how
//! far the search has to look.

use crate::counts::counted;
use crate::Problem;
use compare::record::{self, Record, RECORD_SIZE};
use ierbulosc::interface::{escp_slot, Part};
use std::hint::black_box;
use std::time::{Duration, Instant};

/// What there is to be found in a list.
#[derive(Clone, Copy, PartialEq, Eq, Debug)]
enum Kind {
    /// The tenth newest record is the answer.
    NewestTen,
    /// There is no answer on a page that goes on for the whole list.
    Nothing,
    /// There is no answer on a page of the newest 20 records.
    PageOf20,
}

/// A list of so many records: lines of seven letters, each fed by an LN.
#[derive(Clone, Copy, PartialEq, Eq, Debug)]
pub struct List {
    kind: Kind,
    records: usize,
}

const LENGTHS: [usize; 3] = [20, 1_000, 1_000_000];
/// The column asked for, where only the answer stands.
const COLUMN: u16 = 1_200;
/// The records that are looked at in a measurement of time, by one call or by
/// several.
const LOOKED_AT: usize = 2_000_000;
const RUNS: usize = 7;

/// All that is measured, in the order of the table.
pub fn lists() -> Vec<List> {
    let of = |kind| LENGTHS.map(|records| List { kind, records });
    let page = List {
        kind: Kind::PageOf20,
        records: 1_000_000,
    };
    [&of(Kind::NewestTen)[..], &of(Kind::Nothing), &[page]].concat()
}

impl List {
    /// Its name among the limits.
    pub fn name(&self) -> String {
        let kind = match self.kind {
            Kind::NewestTen => "newest-ten",
            Kind::Nothing => "nothing",
            Kind::PageOf20 => "page-of-20",
        };
        format!("slot {kind} {}", self.records)
    }

    fn in_words(&self) -> &'static str {
        match self.kind {
            Kind::NewestTen => "the tenth newest is the answer",
            Kind::Nothing => "no answer, all on one page",
            Kind::PageOf20 => "no answer, a page of the newest 20",
        }
    }

    /// The records that must be looked at for the answer to be certain.
    fn looked_at(&self) -> usize {
        match self.kind {
            Kind::NewestTen => 10,
            Kind::Nothing => self.records,
            Kind::PageOf20 => 21,
        }
    }

    pub fn bytes(&self) -> Vec<u8> {
        let ages = (0..self.records).rev();
        ages.flat_map(|age| self.record(age)).collect()
    }

    /// The record before so many newer ones.
    fn record(&self, age: usize) -> Record {
        let (mark, column, byte) = match (self.kind, age) {
            (Kind::NewestTen, 9) => (b"TX", COLUMN, b'R'),
            (Kind::PageOf20, 20) => (b"LN", 0, 1),
            (_, age) if age % 8 == 4 => (b"LN", 0, 0),
            _ => (b"TX", COLUMN + 30, b'A'),
        };
        let mut record = record::marked(*mark);
        record::set(&mut record, record::COLUMN, column);
        record[record::BYTE] = byte;
        record
    }
}

/// Asks for what stands at the column; what callgrind counts, by its name.
#[no_mangle]
#[inline(never)]
fn measured_slot(records: &[u8], part: &mut Part) -> u8 {
    // SAFETY: the list is good for its length, and the part is a whole one that
    // no one else holds during the call.
    unsafe { escp_slot(records.as_ptr(), records.len(), COLUMN, COLUMN, part) }
}

/// One call on each list, for callgrind to count.
pub fn run() -> Result<(), Problem> {
    for list in lists() {
        ask(&list, &list.bytes())?;
    }
    Ok(())
}

/// One call, which must give the answer that there is.
fn ask(list: &List, records: &[u8]) -> Result<(), Problem> {
    let mut part = Part {
        offset: 1,
        length: 1,
    };
    let number = measured_slot(black_box(records), &mut part);
    let due = match list.kind {
        Kind::NewestTen => (records.len() - 10 * RECORD_SIZE, RECORD_SIZE),
        _ => (0, 0),
    };
    if number != 0 || (part.offset, part.length) != due {
        return Err(format!("another answer on {list:?}"));
    }
    Ok(())
}

/// The instructions of a call on each list.
pub fn count() -> Result<Vec<f64>, Problem> {
    counted("measured_slot", &["--slot-calls"], lists().len())
}

/// Prints the table. Where instructions cannot be counted, it says so in
/// their place.
pub fn print() -> Result<(), Problem> {
    let counts = count();
    println!(
        "| List | Records | To look at | Instructions a call | ns a call | ns a record to look at |"
    );
    println!("|---|---:|---:|---:|---:|---:|");
    for (number, list) in lists().iter().enumerate() {
        let instructions = match &counts {
            Ok(counts) => format!("{:.0}", counts[number]),
            Err(_) => "not counted".to_string(),
        };
        let time = time(list)? * 1e9;
        let (words, records, looked_at) = (list.in_words(), list.records, list.looked_at());
        println!(
            "| {words} | {records} | {looked_at} | {instructions} | {time:.0} | {:.2} |",
            time / looked_at as f64
        );
    }
    Ok(())
}

/// The shortest time of a call in several runs, in seconds.
fn time(list: &List) -> Result<f64, Problem> {
    let records = list.bytes();
    ask(list, &records)?;
    let calls = LOOKED_AT / list.looked_at();
    let mut part = Part {
        offset: 0,
        length: 0,
    };
    let mut best = Duration::MAX;
    for _ in 0..RUNS {
        let begun = Instant::now();
        for _ in 0..calls {
            black_box(measured_slot(black_box(&records), &mut part));
        }
        best = begun.elapsed().min(best);
    }
    Ok(best.as_secs_f64() / calls as f64)
}

/// Whether the answer among the newest ten costs no more in a longer list than
/// in the shortest; the counts that say otherwise if not.
pub fn no_longer_search(counts: &[f64]) -> Result<(), Problem> {
    let near = &counts[..LENGTHS.len()];
    if near.iter().all(|&count| count <= near[0]) {
        return Ok(());
    }
    Err(format!(
        "the answer among the newest ten costs more in a longer list: \
         {near:?} instructions in lists of {LENGTHS:?} records"
    ))
}
