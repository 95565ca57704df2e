//! A shorter list of calls that still fails.

use crate::calls::{room_for, Call};
use crate::WIDEST;
use ierbulosc::Settings;

struct Search<'a> {
    best: Vec<Call>,
    fails: &'a dyn Fn(&[Call]) -> bool,
    tries: usize,
}

/// A list that is no longer than the given one and fails too, found with at
/// most so many tries. The first call stays the first if it is a start.
pub fn shrink(calls: &[Call], fails: &dyn Fn(&[Call]) -> bool, tries: usize) -> Vec<Call> {
    let mut search = Search {
        best: calls.to_vec(),
        fails,
        tries,
    };
    loop {
        let before = search.best.clone();
        search.drop_calls();
        search.join_calls();
        search.drop_bytes();
        search.simplify();
        if search.best == before || search.tries == 0 {
            return search.best;
        }
    }
}

impl Search<'_> {
    /// Takes the candidate if it still fails.
    fn attempt(&mut self, candidate: Vec<Call>) -> bool {
        if self.tries == 0 || candidate == self.best {
            return false;
        }
        self.tries -= 1;
        let taken = (self.fails)(&candidate);
        if taken {
            self.best = candidate;
        }
        taken
    }

    /// Drops runs of calls: long runs first, then single calls.
    fn drop_calls(&mut self) {
        let first = usize::from(matches!(self.best.first(), Some(Call::Start { .. })));
        let mut run = self.best.len();
        while run > 0 {
            let mut at = first;
            while at + run <= self.best.len() {
                let mut candidate = self.best.clone();
                candidate.drain(at..at + run);
                if !self.attempt(candidate) {
                    at += run;
                }
            }
            run /= 2;
        }
    }

    /// Makes one reading call of two that follow each other.
    fn join_calls(&mut self) {
        let mut at = 0;
        while at + 1 < self.best.len() {
            let mut candidate = self.best.clone();
            let next = candidate.remove(at + 1);
            let joined = match (&mut candidate[at], next) {
                (Call::Read { input, .. }, Call::Read { input: more, .. }) => {
                    input.extend(more);
                    true
                }
                _ => false,
            };
            if !joined || !self.attempt(candidate) {
                at += 1;
            }
        }
    }

    /// Drops runs of bytes from each piece.
    fn drop_bytes(&mut self) {
        for call in 0..self.best.len() {
            let mut run = self.piece(call).len();
            while run > 0 {
                self.drop_runs(call, run);
                run /= 2;
            }
        }
    }

    fn drop_runs(&mut self, call: usize, run: usize) {
        let mut at = 0;
        while at + run <= self.piece(call).len() {
            let mut candidate = self.best.clone();
            if let Call::Read { input, .. } = &mut candidate[call] {
                input.drain(at..at + run);
            }
            if !self.attempt(candidate) {
                at += run;
            }
        }
    }

    fn piece(&self, call: usize) -> &[u8] {
        match &self.best[call] {
            Call::Read { input, .. } => input,
            Call::Start { .. } => &[],
        }
    }

    /// Plain starts, allowances, output lengths and bytes.
    fn simplify(&mut self) {
        for call in 0..self.best.len() {
            let mut choice = 0;
            while let Some(simpler) = simpler(&self.best[call]).get(choice) {
                let mut candidate = self.best.clone();
                candidate[call] = simpler.clone();
                self.attempt(candidate);
                choice += 1;
            }
            for at in 0..self.piece(call).len() {
                let mut candidate = self.best.clone();
                if let Call::Read { input, .. } = &mut candidate[call] {
                    if !matches!(input[at], b'A' | 0x1B | 0) {
                        input[at] = b'A';
                        self.attempt(candidate);
                    }
                }
            }
        }
    }
}

/// Calls like this one, each with one thing made plain.
fn simpler(call: &Call) -> Vec<Call> {
    match call {
        Call::Start(settings) => vec![
            Call::Start(Settings {
                resolution: 300,
                ..*settings
            }),
            Call::Start(Settings {
                auto_feed: 0,
                ..*settings
            }),
            Call::Start(Settings {
                width: WIDEST,
                ..*settings
            }),
        ],
        Call::Read {
            input,
            allowance,
            room,
        } => vec![
            Call::Read {
                input: input.clone(),
                allowance: input.len(),
                room: room_for(input.len()),
            },
            Call::Read {
                input: input.clone(),
                allowance: input.len(),
                room: *room,
            },
            Call::Read {
                input: input.clone(),
                allowance: *allowance,
                room: room_for(input.len()),
            },
        ],
    }
}
