//! The shortest case that can be found in which the readers still differ.

use crate::calls::Call;
use crate::fields::differing;
use crate::hold::{difference, Case, Tally};
use crate::registers::follows;
use crate::shrink::shrink;
use ierbulosc::{Settings, State as Registers, REGISTERS};
use std::ops::Range;

const TRIES: usize = 20_000;

/// A case that is no longer than this one and has a difference too.
pub fn shortest(case: &Case) -> Case {
    let mut best = case.clone();
    loop {
        let before = best.clone();
        best = shorter_calls(&best);
        best = sooner_end(&best);
        best = plainer_state(&best);
        if best == before {
            return best;
        }
    }
}

fn differs(case: &Case) -> bool {
    difference(case, &mut Tally::default()).is_some()
}

fn shorter_calls(case: &Case) -> Case {
    let state = case.state;
    let fails = |calls: &[_]| {
        let calls = calls.to_vec();
        differs(&Case { state, calls })
    };
    Case {
        state,
        calls: shrink(&case.calls, &fails, TRIES),
    }
}

/// The case with a beginning of its last piece and one byte more, if there is
/// one that differs too.
fn sooner_end(case: &Case) -> Case {
    let Some(Call::Read { input, .. }) = case.calls.last() else {
        return case.clone();
    };
    let kept = 0..input.len().saturating_sub(1);
    let ends = kept.flat_map(|kept| (0..=255).map(move |byte| (kept, byte)));
    let shorter = |(kept, byte): (usize, u8)| {
        let mut shorter = case.clone();
        if let Some(Call::Read { input, .. }) = shorter.calls.last_mut() {
            input.truncate(kept);
            input.push(byte);
        }
        shorter
    };
    let mut found = ends.take(TRIES).map(shorter).filter(differs);
    found.next().unwrap_or_else(|| case.clone())
}

/// Registers that are tried together: what is waited for; places, margins and
/// page; the settings, what follows from them, and the chosen channel; each list
/// of stops; the channels.
const PARTS: [Range<usize>; 6] = [0..6, 6..13, 13..41, 41..74, 74..107, 107..REGISTERS];

/// The case with as much of its state as at power-on as can be: parts first,
/// then single registers, alone or with what follows from them.
fn plainer_state(case: &Case) -> Case {
    let Some(mut best) = case.state else {
        return case.clone();
    };
    let with = |state| Case {
        state: Some(state),
        calls: case.calls.clone(),
    };
    let (_, power_on) = Registers::start(&Settings::default());
    let unlike = |state: &Registers| differing(state, &power_on).len();
    let singles = (0..REGISTERS).map(|at| at..at + 1);
    for part in PARTS.into_iter().chain(singles) {
        let mut registers = best.registers();
        registers[part.clone()].copy_from_slice(&power_on.registers()[part]);
        let candidate = Registers::from_registers(registers);
        let plainer = [candidate, follows(&candidate)].into_iter();
        let mut plainer = plainer.filter(|state| unlike(state) < unlike(&best));
        if let Some(found) = plainer.find(|&state| differs(&with(state))) {
            best = found;
        }
    }
    with(best)
}
