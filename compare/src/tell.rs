//! Differences and outcomes in words.

use crate::calls::FILL;
use crate::fields;
use crate::hold::{Came, Difference};
use crate::reckoning::Printed;
use crate::record::{number, Record, ADVANCE, BYTE, COLUMN};
use crate::record::{COUNTRY, FONT, RECORD_SIZE, REST, ROW, STYLE};
use crate::runs::InRuns;
use plain_reader::State;
use std::fmt::Write;

/// How many records of a kind are shown.
const SHOWN: usize = 40;

/// The difference in words.
pub fn difference(difference: &Difference) -> String {
    match difference {
        Difference::Call {
            index,
            plain,
            proved,
        } => format!("call {}:\n{}", index + 1, both(plain, proved)),
        Difference::Runs {
            index,
            plain,
            after,
            runs,
        } => format!(
            "call {}, of the plain reader alone:\n{}",
            index + 1,
            in_runs(plain, after.as_deref(), runs)
        ),
        Difference::Printed { due, came } => printed(due, came),
    }
}

/// What both readers came back with from a call, and where it differs.
pub fn both(plain: &Came, proved: &Came) -> String {
    let equal = equal_records(plain, proved);
    format!(
        "plain:  {}proved: {}{}",
        outcome(plain, equal),
        outcome(proved, equal),
        states(plain, proved)
    )
}

/// What the plain reader came back with byte by byte and in runs.
fn in_runs(plain: &Came, after: Option<&State>, runs: &InRuns) -> String {
    let InRuns { report, out, state } = runs;
    let runs = Came {
        answer: report.answer,
        read: report.read,
        written: report.written,
        out: out.clone(),
        state: None,
    };
    let equal = equal_records(plain, &runs);
    let mut text = format!(
        "byte by byte: {}in runs:      {}",
        outcome(plain, equal),
        outcome(&runs, equal)
    );
    if after != Some(state) {
        let _ = writeln!(text, "state byte by byte: {after:?}\nin runs: {state:?}");
    }
    text
}

/// How many records are the same before the first that is not; none if all
/// are the same.
fn equal_records(plain: &Came, proved: &Came) -> usize {
    let pairs = records(plain).zip(records(proved));
    let equal = pairs.take_while(|(plain, proved)| plain == proved).count();
    if equal == records(plain).count() && equal == records(proved).count() {
        0
    } else {
        equal
    }
}

fn records(came: &Came) -> std::slice::Chunks<'_, u8> {
    let written = &came.out[..came.written.min(came.out.len())];
    written.chunks(RECORD_SIZE)
}

/// The numbers, and the records after so many equal ones.
fn outcome(came: &Came, equal: usize) -> String {
    let Came {
        answer,
        read,
        written,
        out,
        ..
    } = came;
    let mut text = format!("answer {answer}, read {read}, written {written}\n");
    if equal > 0 {
        let _ = writeln!(text, "  .. {equal} equal records");
    }
    for bytes in records(came).skip(equal).take(SHOWN) {
        let _ = writeln!(text, "  {}", record(bytes));
    }
    let mut past = out.iter().enumerate().skip(*written);
    if let Some((at, _)) = past.find(|(_, byte)| **byte != FILL) {
        let _ = writeln!(text, "  output byte {at}, past the count, is touched");
    }
    text
}

/// The registers in which the states differ.
fn states(plain: &Came, proved: &Came) -> String {
    let (Some(plain), Some(proved)) = (&plain.state, &proved.state) else {
        return "the plain reader's state has no registers, or was altered though refused\n"
            .to_string();
    };
    let mut text = String::new();
    for (name, plain, proved) in fields::differing(plain, proved) {
        let _ = writeln!(text, "state:  {name} is {plain} plain, {proved} proved");
    }
    text
}

/// A record as bytes and in words.
fn record(bytes: &[u8]) -> String {
    let mut text: String = bytes.iter().map(|byte| format!("{byte:02x}")).collect();
    if bytes.len() == RECORD_SIZE {
        let [column, row, style, advance, rest] =
            [COLUMN, ROW, STYLE, ADVANCE, REST].map(|field| number(bytes, field));
        let [byte, font, country] = [BYTE, FONT, COUNTRY].map(|field| bytes[field]);
        let _ = write!(
            text,
            "  {} column {column} row {row} byte {byte:02X}h font {font} style {style} \
             country {country} advance {advance} rest {}",
            bytes[..COLUMN].escape_ascii(),
            rest as i16
        );
    }
    text
}

fn printed(due: &[Printed], came: &[Record]) -> String {
    let mut text = "letters and image bytes, from the first that differs on:\n".to_string();
    for printed in due.iter().take(SHOWN) {
        let outside = if printed.inside {
            ""
        } else {
            ", outside the margins"
        };
        let _ = writeln!(
            text,
            "due:    {}\n        at {} units across, {} down{outside}",
            record(&printed.record),
            printed.across,
            printed.down
        );
    }
    for bytes in came.iter().take(SHOWN) {
        let _ = writeln!(text, "proved: {}", record(bytes));
    }
    text
}
