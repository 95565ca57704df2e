//! Reads ESC/P from standard input in pieces of five bytes and shows the page
//! as it stands at the end: its lines of letters, how many bytes of images are
//! on it, and what stands now in each of a card's seven slots.
//!
//! ```text
//! card [DOTS [WIDTH]] < INPUT     at 300 dots to the inch, or 203, on paper of
//!                                 this width in 1/3600 inch
//! ```

use ierbulosc::{dot, place, records, slot, Answer, Record, Settings, State, ROOM};
use std::io::Read;
use std::process::ExitCode;

const PIECE: usize = 5;
/// The slots of a card: each begins at a tab stop, and goes up to the next.
const SLOTS: usize = 7;
/// The row of a card in which the slots' numbers stand.
const HEADING: u16 = 0;

/// A letter of the page, its place in dots, with the rest across, and its width
/// in units.
#[derive(Clone, Copy)]
struct Letter {
    byte: u8,
    column: u16,
    rest: i16,
    row: u16,
    advance: u16,
}

impl Letter {
    /// The letter of a record, if it is one.
    fn of(record: Record) -> Option<Letter> {
        match record {
            Record::Tx {
                column,
                row,
                byte,
                advance,
                rest,
                ..
            } => Some(Letter {
                byte,
                column,
                rest,
                row,
                advance,
            }),
            _ => None,
        }
    }
}

/// A page: its letters, and how many image bytes it has.
#[derive(Default)]
struct Page {
    letters: Vec<Letter>,
    images: usize,
    /// As many of both are there for good: a CL voids only what came after.
    line: (usize, usize),
}

impl Page {
    /// What a record does to the page.
    fn take(&mut self, record: Record) {
        match record {
            Record::Tx { .. } => self.letters.extend(Letter::of(record)),
            Record::Im { .. } => self.images += 1,
            Record::Ln { pages, .. } => {
                // A page turned, or a new top: another sheet.
                if pages > 0 {
                    *self = Page::default();
                }
                self.line = (self.letters.len(), self.images);
            }
            Record::Cl => {
                self.letters.truncate(self.line.0);
                self.images = self.line.1;
            }
            Record::No { .. } => {}
        }
    }

    /// The lines of letters, with a space between those that stand apart.
    fn lines(&self, dots: u32) -> Vec<String> {
        let lines = self.letters.chunk_by(|one, next| one.row == next.row);
        let line = |letters: &[Letter]| {
            let mut text = format!("row {}: ", letters[0].row);
            let mut before = letters[0];
            for &letter in letters {
                if stands_apart(&before, &letter, dots) {
                    text.push(' ');
                }
                text.push(char::from(letter.byte));
                before = letter;
            }
            text
        };
        lines.map(line).collect()
    }
}

/// Whether a letter stands apart from the one before it, by their exact places.
fn stands_apart(before: &Letter, letter: &Letter, dots: u32) -> bool {
    let end = place(before.column, before.rest, dots) + u32::from(before.advance);
    place(letter.column, letter.rest, dots) > end
}

fn main() -> ExitCode {
    let number = |at, plain| {
        let word = std::env::args().nth(at);
        word.map_or(plain, |word| word.parse().unwrap_or(0))
    };
    let shown =
        read(number(1, 300), number(2, 28_800)).and_then(|(list, state)| show(&list, &state));
    match shown {
        Ok(()) => ExitCode::SUCCESS,
        Err(problem) => {
            eprintln!("card: {problem}");
            ExitCode::FAILURE
        }
    }
}

/// What an answer says is wrong.
fn done(answer: Answer) -> Result<(), String> {
    let problem = match answer {
        Answer::Done => return Ok(()),
        Answer::AllowanceUsed => "input is left over: the allowance is used",
        Answer::OutputFull => "input is left over: the output is full",
        Answer::SettingsRefused => "300 or 203 dots to the inch, paper of 7200 to 28800 units",
        Answer::StateRefused => "the state is none that the reader left",
        Answer::LengthRefused => "the list ends within a record",
        _ => "an answer that is none of the reader's",
    };
    Err(problem.to_string())
}

/// All records of standard input, at so many dots to the inch, on paper of this
/// width, and the state at its end. (Records of the pages before the present
/// one could be let go.)
fn read(resolution: u32, width: u32) -> Result<(Vec<u8>, State), String> {
    let (answer, mut state) = State::start(&Settings {
        resolution,
        width,
        ..Settings::default()
    });
    done(answer)?;
    let mut input = Vec::new();
    let mut stdin = std::io::stdin().lock();
    stdin
        .read_to_end(&mut input)
        .map_err(|error| error.to_string())?;
    let mut list = Vec::new();
    for piece in input.chunks(PIECE) {
        let mut out = [0; PIECE * ROOM];
        let report = state.read(piece, piece.len(), &mut out);
        done(report.answer)?;
        list.extend_from_slice(&out[..report.written]);
    }
    Ok((list, state))
}

/// The dot column at which a slot begins, counted from 0: its stop's, or past
/// the last one the right margin's.
fn begin(state: &State, slot: usize) -> u16 {
    let stops = state.columns.held().iter().take(SLOTS);
    let place = |stop: &u32| state.left + stop * state.column_width;
    let units = stops.map(place).nth(slot).unwrap_or(state.right);
    let units = units.min(state.right);
    dot(units, state.dots_across) as u16
}

/// The word that stands now from one column to another, both included, below
/// the heading; empty if nothing does. The newest letter ends it. The letter
/// before that is the newest to the left of it, if in the same row, and so on.
fn word(list: &[u8], from: u16, mut to: u16) -> Result<Vec<Letter>, String> {
    let mut word: Vec<Letter> = Vec::new();
    loop {
        let (answer, part) = slot(list, from, to);
        done(answer)?;
        let Some(letter) = records(part).next().and_then(Letter::of) else {
            break;
        };
        let row = word.last().map_or(letter.row, |after| after.row);
        if letter.row == HEADING || letter.row != row {
            break;
        }
        word.push(letter);
        if letter.column == from {
            break;
        }
        to = letter.column - 1;
    }
    word.reverse();
    Ok(word)
}

/// Shows the page, and what stands in each slot now. The driver counts slots
/// from 1, the electricians from 0.
fn show(list: &[u8], state: &State) -> Result<(), String> {
    let mut page = Page::default();
    records(list).for_each(|record| page.take(record));
    for line in page.lines(state.dots_across) {
        println!("{line}");
    }
    println!("image bytes: {}", page.images);
    for slot in 0..SLOTS {
        let word = word(list, begin(state, slot), begin(state, slot + 1) - 1)?;
        let text: String = word.iter().map(|letter| char::from(letter.byte)).collect();
        let standing = match word.first() {
            None => "nothing".to_string(),
            Some(Letter { column, row, .. }) => format!("{text} at column {column}, row {row}"),
        };
        println!("slot {} (electricians: {slot}): {standing}", slot + 1);
    }
    Ok(())
}
