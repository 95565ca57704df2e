//! The plain reader in runs, held against the plain one byte by byte.

use crate::calls::{Call, FILL};
use crate::hold::Came;
use plain_reader::{read_in_runs, Report, State};

/// What a reading call in runs came back with.
#[derive(Clone, PartialEq, Eq, Debug)]
pub struct InRuns {
    pub report: Report,
    /// The whole output, which held `FILL` before the call.
    pub out: Vec<u8>,
    pub state: State,
}

/// What reading in runs comes back with, from the state before a call, if
/// that is other than what reading byte by byte came back with and left.
pub fn otherwise(
    before: Option<State>,
    call: &Call,
    plain: &Came,
    after: Option<&State>,
) -> Option<InRuns> {
    let (
        Some(mut state),
        Call::Read {
            input,
            allowance,
            room,
        },
    ) = (before, call)
    else {
        return None;
    };
    let mut out = vec![FILL; *room];
    let report = read_in_runs(&mut state, input, *allowance, &mut out);
    let due = Report {
        answer: plain.answer,
        read: plain.read,
        written: plain.written,
    };
    let same = report == due && out == plain.out && after == Some(&state);
    (!same).then_some(InRuns { report, out, state })
}
