//! Writes what the library is run on for another processor (boards/): lists of
//! calls, with what came back from them here, held to the plain readers; and
//! the inputs that are measured.
//!
//! A line of the calls is one of these, with bytes in hex, or `-` for none:
//!
//! ```text
//! list                        a list of calls begins, its registers all 0
//! state NUMBER..              its registers, all of them
//! start DOTS FEED WIDTH       a start
//! read ALLOWANCE ROOM BYTES   a reading call
//! slot FROM TO BYTES          what stands in these columns of a list of records
//! write ROOM BYTES            a card, from a list of letters
//! ```
//!
//! What came back has a line for each of them: the same word for the first two,
//! else the answer, with `register=number` for each register that a start or a
//! reading call has changed:
//!
//! ```text
//! ANSWER CHANGED..
//! ANSWER READ WRITTEN BYTES CHANGED..
//! ANSWER OFFSET LENGTH
//! ANSWER WRITTEN BYTES
//! ```

use compare::calls::{calls, room_for, Call};
use compare::hold::{difference, outcomes, Came, Case, Tally};
use compare::random::Random;
use compare::{arbitrary, bounds, cards, generate, inputs, slots};
use ierbulosc::State;
use std::fmt::Write;
use std::process::ExitCode;

const HELP: &str = "\
calls: writes what the library is run on for another processor (boards/)

    calls --lists N --seed S CALLS CAME   so many lists of calls, arbitrary states, lists of records
                                          and cards, the states of cases/states.txt, and what came
                                          back from them here, which must be what the plain readers
                                          come back with
    calls --input NAME FILE               an input that is measured: letters, text, styled, images,
                                          sketches, card or forms
    calls --phrases FILE                  the input of every command by which the stack is measured
    calls --help                          this text
";

const BAD_USAGE: u8 = 2;

/// The bytes of an input that is measured, and the phrases of the one for the
/// stack: as `speed` has them.
const LENGTH: usize = 100_000;
const PHRASES: u64 = 4_000;

/// Why nothing is written.
enum Problem {
    Usage(String),
    Other(String),
}

fn main() -> ExitCode {
    let arguments: Vec<String> = std::env::args_os()
        .skip(1)
        .map(|argument| argument.to_string_lossy().into_owned())
        .collect();
    match run(&arguments) {
        Ok(()) => ExitCode::SUCCESS,
        Err(Problem::Usage(problem)) => {
            eprintln!("calls: {problem}");
            ExitCode::from(BAD_USAGE)
        }
        Err(Problem::Other(problem)) => {
            eprintln!("calls: {problem}");
            ExitCode::FAILURE
        }
    }
}

fn run(arguments: &[String]) -> Result<(), Problem> {
    let words: Vec<&str> = arguments.iter().map(String::as_str).collect();
    match *words.as_slice() {
        ["--help"] => {
            print!("{HELP}");
            Ok(())
        }
        ["--lists", lists, "--seed", seed, calls, came] => {
            let texts = texts(number("--lists", lists)?, number("--seed", seed)?)?;
            store(calls, texts.calls.as_bytes())?;
            store(came, texts.came.as_bytes())
        }
        ["--input", name, file] => match inputs::input(name, LENGTH) {
            Some(bytes) => store(file, &bytes),
            None => Err(Problem::Usage(format!("there is no input {name:?}"))),
        },
        ["--phrases", file] => store(file, &generate::input(&mut Random::new(1), PHRASES)),
        _ => Err(Problem::Usage("bad arguments; see calls --help".into())),
    }
}

fn number(option: &str, word: &str) -> Result<u64, Problem> {
    let number = word.parse();
    number.map_err(|_| Problem::Usage(format!("{option} takes a number, not {word:?}")))
}

fn store(file: &str, bytes: &[u8]) -> Result<(), Problem> {
    let stored = std::fs::write(file, bytes);
    stored.map_err(|error| Problem::Other(format!("{file}: {error}")))
}

/// The lines of the calls, and of what came back.
#[derive(Default)]
struct Texts {
    calls: String,
    came: String,
}

/// So many lists of calls, states, lists of records and cards, and the states
/// at each bound.
fn texts(lists: u64, seed: u64) -> Result<Texts, Problem> {
    let mut seeds = Random::new(seed);
    let mut random = || Random::new(seeds.number());
    let mut texts = Texts::default();
    for _ in 0..lists {
        let calls = calls(&mut random());
        texts.case(&Case { state: None, calls })?;
    }
    let states = bounds::states().ok_or_else(|| Problem::Other("cases/states.txt".into()))?;
    for (_, state) in states {
        texts.case(&bound(state))?;
    }
    for _ in 0..lists {
        texts.case(&arbitrary::case(&mut random()))?;
    }
    for _ in 0..lists {
        texts.question(&slots::generate::question(&mut random()))?;
    }
    for _ in 0..lists {
        texts.card(&cards::generate::card(&mut random()))?;
    }
    Ok(texts)
}

/// A state at a bound: whether it is accepted, and some of every sort read.
fn bound(state: State) -> Case {
    let read = |input: &[u8]| Call::Read {
        input: input.to_vec(),
        allowance: usize::MAX,
        room: room_for(input.len()),
    };
    Case {
        state: Some(state),
        calls: vec![read(b""), read(b"A\t\x0B\r\n\x1BK\x01\x00\xFF\x0C")],
    }
}

/// The readers differ: `compare` tells how.
fn differ(what: &str) -> Problem {
    Problem::Other(format!("the readers differ in {what}: see compare"))
}

impl Texts {
    fn case(&mut self, case: &Case) -> Result<(), Problem> {
        if difference(case, &mut Tally::default()).is_some() {
            return Err(differ("a list of calls"));
        }
        self.calls.push_str("list\n");
        self.came.push_str("list\n");
        let mut registers = [0; ierbulosc::REGISTERS];
        if let Some(state) = &case.state {
            registers = state.registers();
            self.calls.push_str("state");
            for register in registers {
                let _ = write!(self.calls, " {register}");
            }
            self.calls.push('\n');
            self.came.push_str("state\n");
        }
        for (call, (_, came)) in case.calls.iter().zip(outcomes(case)) {
            self.call(call);
            self.came(call, &came);
            let after = came.state.map_or(registers, |state| state.registers());
            self.changes(&registers, &after);
            registers = after;
        }
        Ok(())
    }

    fn call(&mut self, call: &Call) {
        let _ = match call {
            Call::Start(settings) => writeln!(
                self.calls,
                "start {} {} {}",
                settings.resolution, settings.auto_feed, settings.width
            ),
            Call::Read {
                input,
                allowance,
                room,
            } => writeln!(self.calls, "read {allowance} {room} {}", hex(input)),
        };
    }

    fn came(&mut self, call: &Call, came: &Came) {
        let _ = write!(self.came, "{}", came.answer);
        if let Call::Read { .. } = call {
            let (read, written) = (came.read, came.written);
            let _ = write!(self.came, " {read} {written} {}", hex(&came.out[..written]));
        }
    }

    /// The registers that are others, and the end of the line.
    fn changes(&mut self, before: &[u32], after: &[u32]) {
        for (index, (before, after)) in before.iter().zip(after).enumerate() {
            if before != after {
                let _ = write!(self.came, " {index}={after}");
            }
        }
        self.came.push('\n');
    }

    fn question(&mut self, question: &slots::Question) -> Result<(), Problem> {
        let answers = slots::answers(question);
        if !answers.same() {
            return Err(differ("a list of records"));
        }
        let slots::Question { records, from, to } = question;
        let _ = writeln!(self.calls, "slot {from} {to} {}", hex(records));
        let slots::Answer {
            number,
            start,
            length,
        } = answers.proved;
        let _ = writeln!(self.came, "{number} {start} {length}");
        Ok(())
    }

    fn card(&mut self, card: &cards::Card) -> Result<(), Problem> {
        if cards::difference(card, &mut cards::Tally::default()).is_some() {
            return Err(differ("a card"));
        }
        let cards::Answer {
            number,
            written,
            out,
        } = cards::answers(card).proved;
        let _ = writeln!(self.calls, "write {} {}", card.room, hex(&card.letters));
        let _ = writeln!(self.came, "{number} {written} {}", hex(&out[..written]));
        Ok(())
    }
}

/// Bytes in hex, `-` for none.
fn hex(bytes: &[u8]) -> String {
    if bytes.is_empty() {
        return "-".into();
    }
    const DIGITS: &[u8; 16] = b"0123456789abcdef";
    let digit = |number: u8| char::from(DIGITS[usize::from(number)]);
    let two = |byte: &u8| [digit(byte >> 4), digit(byte & 15)];
    bytes.iter().flat_map(two).collect()
}
