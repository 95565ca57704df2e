//! The readers held against each other, call by call.

use crate::calls::{self, Call, FILL};
use crate::reckoning::{expected, Printed};
use crate::record::{Record, RECORD_SIZE};
use crate::registers::{self, without_old_places};
use crate::runs::{otherwise, InRuns};
use crate::states;
use ierbulosc::{Settings, State as Registers};
use plain_reader::{Report, State};

/// A state to begin from, if not from a start, and a list of calls.
#[derive(Clone, PartialEq, Eq, Debug)]
pub struct Case {
    pub state: Option<Registers>,
    pub calls: Vec<Call>,
}

/// What a call came back with from one of the readers.
#[derive(Clone, PartialEq, Eq, Debug)]
pub struct Came {
    pub answer: u8,
    pub read: usize,
    pub written: usize,
    /// The whole output, which held `FILL` before the call.
    pub out: Vec<u8>,
    /// The state; none if the plain reader's has no registers.
    pub state: Option<Registers>,
}

/// How the readers differ.
#[derive(Clone, PartialEq, Eq, Debug)]
pub enum Difference {
    /// A call that the proved reader came back from otherwise.
    Call {
        index: usize,
        plain: Box<Came>,
        proved: Box<Came>,
    },
    /// A call that the plain reader in runs came back from otherwise than
    /// byte by byte.
    Runs {
        index: usize,
        plain: Box<Came>,
        after: Option<Box<State>>,
        runs: Box<InRuns>,
    },
    /// The letters and image bytes that the reckoning of exact places has due
    /// over all calls, and the TX and IM records that came, from the first on
    /// that differ.
    Printed {
        due: Vec<Printed>,
        came: Vec<Record>,
    },
}

/// What was done so far.
#[derive(Clone, Copy, PartialEq, Eq, Debug, Default)]
pub struct Tally {
    pub calls: u64,
    pub bytes: u64,
}

/// The first difference in a case, if there is one.
pub fn difference(case: &Case, tally: &mut Tally) -> Option<Difference> {
    let mut pair = Pair::new(case.state.as_ref());
    let mut reads = Vec::with_capacity(case.calls.len());
    let mut printed = Vec::new();
    for (index, call) in case.calls.iter().enumerate() {
        let before = pair.plain.clone();
        let (plain, proved, same) = pair.call(call);
        if let Some(runs) = otherwise(before, call, &plain, pair.plain.as_ref()) {
            return Some(Difference::Runs {
                index,
                plain: Box::new(plain),
                after: pair.plain.map(Box::new),
                runs: Box::new(runs),
            });
        }
        if !same {
            return Some(Difference::Call {
                index,
                plain: Box::new(plain),
                proved: Box::new(proved),
            });
        }
        tally.calls += 1;
        tally.bytes += proved.read as u64;
        reads.push(proved.read);
        printed.extend(letters_and_images(&proved));
    }
    match case.state {
        None => misprinted(expected(&case.calls, &reads), printed),
        Some(_) => None,
    }
}

/// What both readers come back with from each call of a case.
pub fn outcomes(case: &Case) -> Vec<(Came, Came)> {
    let mut pair = Pair::new(case.state.as_ref());
    let both = |call| {
        let (plain, proved, _) = pair.call(call);
        (plain, proved)
    };
    case.calls.iter().map(both).collect()
}

/// The TX and IM records of a call.
fn letters_and_images(came: &Came) -> impl Iterator<Item = Record> + '_ {
    let records = came.out[..came.written].chunks_exact(RECORD_SIZE);
    let marked = records.filter(|record| matches!(&record[..2], b"TX" | b"IM"));
    marked.filter_map(|record| record.try_into().ok())
}

/// The exact places against the records.
fn misprinted(due: Vec<Printed>, came: Vec<Record>) -> Option<Difference> {
    let good = |(due, came): &(&Printed, &Record)| due.is(came);
    let same = due.iter().zip(&came).take_while(good).count();
    if same == due.len() && same == came.len() {
        return None;
    }
    Some(Difference::Printed {
        due: due[same..].to_vec(),
        came: came[same..].to_vec(),
    })
}

/// The readers side by side, with their states.
struct Pair {
    /// None for registers that stand for no plain state.
    plain: Option<State>,
    proved: Registers,
    /// Whether a start came before.
    started: bool,
}

impl Pair {
    /// From a state, or before any call: as after a refused start.
    fn new(state: Option<&Registers>) -> Pair {
        match state {
            Some(state) => Pair {
                plain: registers::plain(state),
                proved: *state,
                started: false,
            },
            None => Pair {
                plain: Some(calls::start(&calls::REFUSED).1),
                proved: Registers::start(&calls::REFUSED).1,
                started: true,
            },
        }
    }

    /// What both come back with, and whether it is the same.
    fn call(&mut self, call: &Call) -> (Came, Came, bool) {
        match call {
            Call::Start(settings) => self.start(settings),
            Call::Read {
                input,
                allowance,
                room,
            } => {
                let plain = self.read_plain(input, *allowance, *room);
                let proved = self.read_proved(input, *allowance, *room);
                let same = self.same(&plain, &proved);
                (plain, proved, same)
            }
        }
    }

    /// A start, after which every register is looked at.
    fn start(&mut self, settings: &Settings) -> (Came, Came, bool) {
        let (answer, state) = calls::start(settings);
        let plain = Came::from_start(answer, registers::registers(&state));
        self.plain = Some(state);
        let (answer, state) = Registers::start(settings);
        let proved = Came::from_start(answer.number(), Some(state));
        self.proved = state;
        self.started = true;
        let same = plain == proved;
        (plain, proved, same)
    }

    /// The plain reader's reading call; registers that stand for no plain
    /// state are refused.
    fn read_plain(&mut self, input: &[u8], allowance: usize, room: usize) -> Came {
        let mut out = vec![FILL; room];
        let mut report = Report {
            answer: plain_reader::STATE_REFUSED,
            read: 0,
            written: 0,
        };
        let mut after = Some(self.proved);
        if let Some(state) = &mut self.plain {
            let before = state.clone();
            report = plain_reader::read(state, input, allowance, &mut out);
            if report.answer != plain_reader::STATE_REFUSED {
                after = registers::registers(state);
            } else if *state != before {
                after = None;
            }
        }
        Came {
            answer: report.answer,
            read: report.read,
            written: report.written,
            out,
            state: after,
        }
    }

    fn read_proved(&mut self, input: &[u8], allowance: usize, room: usize) -> Came {
        let mut out = vec![FILL; room];
        let report = self.proved.read(input, allowance, &mut out);
        Came {
            answer: report.answer.number(),
            read: report.read,
            written: report.written,
            out,
            state: Some(self.proved),
        }
    }

    /// Whether a reading call came back the same: numbers, the whole output
    /// and the state. A refused state is the same if every register is as it
    /// came, and so is any after a start, but for the places of channels that
    /// were never set; of a made-up state those registers count that the rules
    /// look at.
    fn same(&self, plain: &Came, proved: &Came) -> bool {
        let numbers = |came: &Came| (came.answer, came.read, came.written);
        if numbers(plain) != numbers(proved) || plain.out != proved.out {
            return false;
        }
        let Some(expected) = &plain.state else {
            return false;
        };
        if plain.answer == plain_reader::STATE_REFUSED {
            return *expected == self.proved;
        }
        let as_plain = registers::plain(&self.proved).map(|state| states::normal(&state));
        registers::normal(expected) == registers::normal(&self.proved)
            && as_plain == self.plain.as_ref().map(states::normal)
            && (!self.started || without_old_places(expected) == without_old_places(&self.proved))
    }
}

impl Came {
    fn from_start(answer: u8, state: Option<Registers>) -> Came {
        Came {
            answer,
            read: 0,
            written: 0,
            out: Vec::new(),
            state,
        }
    }
}
