//! Times, side by side.

use crate::readers::{subjects, Reader, Subject, READERS};
use crate::{tables, Problem};
use std::hint::black_box;
use std::time::{Duration, Instant};

/// The bytes of an input.
const LENGTH: usize = 1_000_000;
const RUNS: usize = 7;

/// Prints the table; fails on an input with other records.
pub fn print() -> Result<(), Problem> {
    tables::head("MB/s", "Time");
    for subject in subjects() {
        let input = subject.bytes(LENGTH);
        same_records(&subject, &input)?;
        let times = best_times(&subject, &input);
        let rate = |time: f64| format!("{:.0}", input.len() as f64 / 1e6 / time);
        tables::line(&subject, times.map(rate), times);
    }
    Ok(())
}

/// Whether the readers give the same records on an input, and some.
fn same_records(subject: &Subject, input: &[u8]) -> Result<(), Problem> {
    let mut out = subject.room();
    let [proved, plain, runs] = READERS.map(|reader| {
        let mut all = Vec::new();
        subject.read(reader, input, &mut out, |records| {
            all.extend_from_slice(records)
        });
        all
    });
    if proved.is_empty() || proved != plain || proved != runs {
        return Err(format!("the readers give other records on {subject:?}"));
    }
    Ok(())
}

/// The shortest time of several runs of each reader, taken in turn, in
/// seconds.
fn best_times(subject: &Subject, input: &[u8]) -> [f64; 3] {
    let mut out = subject.room();
    let mut best = [Duration::MAX; 3];
    for _ in 0..RUNS {
        for (best, reader) in best.iter_mut().zip(READERS) {
            *best = time(subject, reader, input, &mut out).min(*best);
        }
    }
    best.map(|time| time.as_secs_f64())
}

fn time(subject: &Subject, reader: Reader, input: &[u8], out: &mut [u8]) -> Duration {
    let begun = Instant::now();
    subject.read(reader, black_box(input), out, |records| {
        black_box(records);
    });
    begun.elapsed()
}
