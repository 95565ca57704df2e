//! Writes a card: two lines of a heading and a state, their letters at places
//! in units of 1/3600 inch. Then reads it back in pieces of seven bytes and
//! shows each letter at its dots, and its exact place across again.
//!
//! ```text
//! write [DOTS]     at 300 dots to the inch, or 203
//! ```

use ierbulosc::{card_room, place, records, write, Answer, Letter, Record, Settings, State, ROOM};
use std::process::ExitCode;

/// The bytes of the card to a call.
const PIECE: usize = 7;
/// The width of a letter of 10 cpi.
const WIDTH: u16 = 360;

/// The letters of a word, one beside the other.
fn word(word: &str, across: u16, down: u16) -> impl Iterator<Item = Letter> + '_ {
    let places = (0..).map(move |number| across + number * WIDTH);
    let letters = word.bytes().zip(places);
    letters.map(move |(byte, across)| Letter::new(byte, across, down))
}

fn main() -> ExitCode {
    let dots = std::env::args().nth(1);
    let resolution = dots.map_or(300, |word| word.parse().unwrap_or(0));
    let letters: Vec<Letter> = word("4", 14_400, 0)
        .chain(word("FREE", 14_420, 600))
        .collect();
    let mut room = vec![0; card_room(letters.len())];
    let (answer, card) = write(&letters, &mut room);
    let (started, mut state) = State::start(&Settings {
        resolution,
        ..Settings::default()
    });
    if (answer, started) != (Answer::Done, Answer::Done) {
        eprintln!("write: refused");
        return ExitCode::FAILURE;
    }
    println!("{} letters in {} bytes", letters.len(), card.len());
    for piece in card.chunks(PIECE) {
        let mut out = [0; PIECE * ROOM];
        let report = state.read(piece, usize::MAX, &mut out);
        if report.answer != Answer::Done {
            return ExitCode::FAILURE;
        }
        for record in records(&out[..report.written]) {
            show(record, state.dots_across);
        }
    }
    ExitCode::SUCCESS
}

/// Shows a letter, at so many dots to the inch across.
fn show(record: Record, dots: u32) {
    match record {
        Record::Tx {
            column,
            row,
            byte,
            rest,
            ..
        } => {
            let across = place(column, rest, dots);
            let letter = char::from(byte);
            println!("{letter} at column {column}, row {row}, {across} units across");
        }
        Record::Ln { .. } => {}
        _ => println!("a record that no card gives"),
    }
}
