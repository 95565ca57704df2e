//! Lists of calls: starts and reading calls with pieces, allowances and
//! output lengths of every size.

use crate::generate::phrase;
use crate::random::Random;
use crate::record::{RECORD_SIZE, ROOM};
use crate::{NARROWEST, WIDEST};
use ierbulosc::Settings;
use plain_reader::{read, Report, State};

#[derive(Clone, PartialEq, Eq, Debug)]
pub enum Call {
    Start(Settings),
    Read {
        input: Vec<u8>,
        allowance: usize,
        room: usize,
    },
}

/// What a call came back with.
#[derive(Clone, PartialEq, Eq, Debug)]
pub struct Outcome {
    pub answer: u8,
    pub read: usize,
    pub written: usize,
    /// The whole output slice, which held `FILL` before the call.
    pub out: Vec<u8>,
    pub state: State,
}

/// What every output byte is before a call.
pub const FILL: u8 = 0xE5;

/// Settings that a start refuses.
pub const REFUSED: Settings = Settings {
    resolution: 0,
    auto_feed: 0,
    width: 0,
};

/// An output length with room to read so many bytes, and one more.
pub fn room_for(length: usize) -> usize {
    ROOM * (length + 1)
}

/// The plain reader's start.
pub fn start(settings: &Settings) -> (u8, State) {
    plain_reader::start(settings.resolution, settings.auto_feed != 0, settings.width)
}

/// The plain reader's outcomes, from the state that a refused start gives.
pub fn run(calls: &[Call]) -> Vec<Outcome> {
    let (_, mut state) = start(&REFUSED);
    calls.iter().map(|call| run_one(&mut state, call)).collect()
}

fn run_one(state: &mut State, call: &Call) -> Outcome {
    let mut out = Vec::new();
    let report = match call {
        Call::Start(settings) => {
            let (answer, begun) = start(settings);
            *state = begun;
            Report {
                answer,
                read: 0,
                written: 0,
            }
        }
        Call::Read {
            input,
            allowance,
            room,
        } => {
            out = vec![FILL; *room];
            read(state, input, *allowance, &mut out)
        }
    };
    Outcome {
        answer: report.answer,
        read: report.read,
        written: report.written,
        out,
        state: state.clone(),
    }
}

/// A generated list of calls, beginning with a start.
pub fn calls(random: &mut Random) -> Vec<Call> {
    let mut calls = vec![a_start(random)];
    let (_, mut state) = start(&REFUSED);
    run_one(&mut state, &calls[0]);
    let mut unread = Vec::new();
    let longest = random.pick(&[3, 8, 8, 20, 60]);
    for _ in 0..random.between(1, longest) {
        if random.percent(3) {
            calls.push(a_start(random));
        } else {
            if random.percent(6) {
                unread.clear();
            }
            calls.push(a_reading(random, &mut unread));
        }
        let call = &calls[calls.len() - 1];
        let outcome = run_one(&mut state, call);
        if let Call::Read { .. } = call {
            unread.drain(..outcome.read);
        }
    }
    calls
}

fn a_start(random: &mut Random) -> Call {
    let refused = [
        0,
        1,
        100,
        200,
        202,
        204,
        299,
        301,
        360,
        65_536 + 300,
        u32::MAX,
    ];
    let resolution = match random.below(8) {
        0 => random.pick(&refused),
        1..=3 => 203,
        _ => 300,
    };
    let auto_feed = random.pick(&[0, 0, 0, 0, 0, 0, 1, 1, 2, 256, 1 << 31, u32::MAX]);
    Call::Start(Settings {
        resolution,
        auto_feed,
        width: a_width(random),
    })
}

/// Widths at and beside the limits, and one short of a column more than the
/// narrowest has.
const TELLING_WIDTHS: [u32; 7] = [7_199, 7_200, 7_201, 7_559, 28_799, 28_800, 28_801];

/// A width for a start, mostly one that it takes.
fn a_width(random: &mut Random) -> u32 {
    match random.below(16) {
        0..=2 => random.pick(&TELLING_WIDTHS),
        3..=6 => random.between(NARROWEST.into(), WIDEST.into()) as u32,
        7 => random.pick(&[0, 1, 65_536 + 7_200, 1 << 31, u32::MAX]),
        _ => WIDEST,
    }
}

/// A reading call of what is unread and some new phrases, or of a beginning of
/// it, cut anywhere.
pub fn a_reading(random: &mut Random, unread: &mut Vec<u8>) -> Call {
    let phrases = random.pick(&[0, 1, 1, 2, 4, 10]);
    if unread.len() < 3_000 {
        for _ in 0..phrases {
            phrase(random, unread);
        }
    }
    let piece = match random.percent(25) {
        true => random.below(unread.len() as u64 + 1) as usize,
        false => unread.len(),
    };
    Call::Read {
        input: unread[..piece].to_vec(),
        allowance: an_allowance(random, piece),
        room: a_room(random, piece),
    }
}

fn an_allowance(random: &mut Random, length: usize) -> usize {
    match random.below(10) {
        0 => random.below(4) as usize,
        1 => random.below(length as u64 + 1) as usize,
        2 => length.saturating_sub(1),
        3 => length,
        4 => length + 1,
        5 => usize::MAX,
        _ => length + random.below(1_000) as usize,
    }
}

fn a_room(random: &mut Random, length: usize) -> usize {
    match random.below(10) {
        0..=3 => {
            let whole = RECORD_SIZE * random.pick(&[0, 1, 1, 2, 2, 3, 3, 4, 4, 5, 6, 7, 10, 20]);
            random.pick(&[whole.saturating_sub(1), whole, whole + 1])
        }
        4 => random.below(room_for(length) as u64) as usize,
        5 => RECORD_SIZE * random.below(40) as usize,
        _ => room_for(length),
    }
}
