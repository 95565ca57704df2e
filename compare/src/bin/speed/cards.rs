//! Writing a card: what a letter costs, by the library and by the plain writer.

use crate::counts::counted;
use crate::Problem;
use ierbulosc::interface::escp_write;
use ierbulosc::{card_room, Letter};
use std::hint::black_box;
use std::time::{Duration, Instant};

/// What is written.
#[derive(Clone, Copy, PartialEq, Eq, Debug)]
pub enum Card {
    /// A page of lines of 80 letters, each line fed to.
    Lines,
    /// Letters between the columns, each a step below the one before.
    Scattered,
    /// The longest that a letter can be: at the end of the page.
    Longest,
}

pub const CARDS: [Card; 3] = [Card::Lines, Card::Scattered, Card::Longest];

#[derive(Clone, Copy, PartialEq, Eq, Debug)]
enum Writer {
    Proved,
    Plain,
}

const WRITERS: [Writer; 2] = [Writer::Proved, Writer::Plain];

/// The letters that are written in a measurement of time.
const WRITTEN: usize = 2_000_000;
const RUNS: usize = 7;

impl Card {
    /// Its name among the limits.
    pub fn name(&self) -> String {
        let kind = match self {
            Card::Lines => "lines",
            Card::Scattered => "scattered",
            Card::Longest => "longest",
        };
        format!("write {kind} {}", self.letters().len())
    }

    fn in_words(&self) -> &'static str {
        match self {
            Card::Lines => "66 lines of 80 letters",
            Card::Scattered => "letters between columns, each 20 units lower",
            Card::Longest => "one letter of 33 bytes",
        }
    }

    fn letters(&self) -> Vec<Letter> {
        let letter =
            |number: u16, across, down| Letter::new(b'!' + (number % 90) as u8, across, down);
        match self {
            Card::Lines => (0..66 * 80)
                .map(|number| letter(number, number % 80 * 360, number / 80 * 600))
                .collect(),
            Card::Scattered => (0..1_980)
                .map(|number| letter(number, 20 + number * 7 % 470 * 60, number * 20))
                .collect(),
            Card::Longest => vec![letter(0, 28_420, 39_580)],
        }
    }

    pub fn bytes(&self) -> Vec<u8> {
        let letters = self.letters().into_iter();
        letters.flat_map(Letter::to_bytes).collect()
    }

    /// The room that is asked for.
    pub fn room(&self) -> Vec<u8> {
        vec![0; card_room(self.letters().len())]
    }
}

/// Writes the letters; the answer's number and the count. Callgrind knows this
/// function by its name.
#[no_mangle]
#[inline(never)]
fn measured_write(writer: Writer, letters: &[u8], out: &mut [u8]) -> (u8, usize) {
    match writer {
        Writer::Proved => {
            let mut written = 0;
            let (list, length) = (letters.as_ptr(), letters.len());
            // SAFETY: list and output are good for their lengths, and no one
            // else holds output and count during the call.
            let number =
                unsafe { escp_write(list, length, out.as_mut_ptr(), out.len(), &mut written) };
            (number, written)
        }
        Writer::Plain => {
            let (number, card) = plain_reader::write(letters, out.len());
            (number, black_box(card).len())
        }
    }
}

/// One card by each writer, for callgrind to count.
pub fn run() -> Result<(), Problem> {
    for card in CARDS {
        for writer in WRITERS {
            write(card, writer)?;
        }
    }
    Ok(())
}

/// Writes a card once, which must be as long as the other writer's; its bytes.
fn write(card: Card, writer: Writer) -> Result<usize, Problem> {
    let (letters, mut out) = (card.bytes(), card.room());
    let (number, written) = measured_write(writer, black_box(&letters), &mut out);
    let due = plain_reader::write(&letters, out.len()).1.len();
    if (number, written) != (plain_reader::WRITTEN, due) {
        return Err(format!("{card:?} is written otherwise"));
    }
    Ok(written)
}

/// The instructions of a letter of each card, by the library and by the plain
/// writer.
fn count_both() -> Result<Vec<[f64; 2]>, Problem> {
    let runs = CARDS.len() * WRITERS.len();
    let counts = counted("measured_write", &["--card-calls"], runs)?;
    let counts = counts.chunks_exact(WRITERS.len()).zip(CARDS);
    let letter = |(counts, card): (&[f64], Card)| {
        let letters = card.letters().len() as f64;
        [counts[0] / letters, counts[1] / letters]
    };
    Ok(counts.map(letter).collect())
}

/// The instructions of a letter of each card, by the library.
pub fn count() -> Result<Vec<f64>, Problem> {
    Ok(count_both()?.iter().map(|[proved, _]| *proved).collect())
}

/// Prints the table. Where instructions cannot be counted, it says so in
/// their place.
pub fn print() -> Result<(), Problem> {
    let counts = count_both();
    println!(
        "| Card | Letters | Bytes | Proved, instructions a letter | Plain, instructions a letter | \
         Proved, million letters a second | Plain, million letters a second | Time, proved / plain |"
    );
    println!("|---|---:|---:|---:|---:|---:|---:|---:|");
    for (number, card) in CARDS.into_iter().enumerate() {
        let counts = match &counts {
            Ok(counts) => counts[number]
                .map(|count| format!("{count:.1}"))
                .join(" | "),
            Err(_) => "not counted | not counted".to_string(),
        };
        let [proved, plain] = times(card)?;
        println!(
            "| {} | {} | {} | {counts} | {:.1} | {:.1} | {:.2} |",
            card.in_words(),
            card.letters().len(),
            write(card, Writer::Proved)?,
            1e-6 / proved,
            1e-6 / plain,
            proved / plain
        );
    }
    Ok(())
}

/// The shortest time of a letter in several alternating runs of each writer,
/// in seconds.
fn times(card: Card) -> Result<[f64; 2], Problem> {
    let (letters, mut out) = (card.bytes(), card.room());
    let count = card.letters().len();
    let calls = WRITTEN / count;
    let mut best = [Duration::MAX; 2];
    for _ in 0..RUNS {
        for (best, writer) in best.iter_mut().zip(WRITERS) {
            let begun = Instant::now();
            for _ in 0..calls {
                black_box(measured_write(writer, black_box(&letters), &mut out));
            }
            *best = begun.elapsed().min(*best);
        }
    }
    Ok(best.map(|time| time.as_secs_f64() / (calls * count) as f64))
}
