//! The worked cases (cases/), as the program `worked` is given them, through
//! the library and through both plain readers.

use compare::record::RECORD_SIZE;
use ierbulosc::{Settings, State};
use std::fmt::Write;

const INPUT: &[u8] = include_bytes!("../../crates/worked/stdin");
const EXPECTED: &str = include_str!("../../crates/worked/stdout");

/// The bytes before a case's input.
const HEAD: usize = 11;

/// What a reading call came back with: answer, bytes read and bytes written.
type Numbers = (u8, usize, usize);

/// A case: its settings, the limits of its calls, and its input.
struct Case<'a> {
    settings: Settings,
    allowance: usize,
    room: usize,
    input: &'a [u8],
}

/// The cases, one after the other.
fn cases() -> Vec<Case<'static>> {
    let mut rest = INPUT;
    let mut cases = Vec::new();
    while !rest.is_empty() {
        let (head, after) = rest.split_at(HEAD);
        let two = |at: usize| u16::from_le_bytes([head[at], head[at + 1]]);
        let (input, after) = after.split_at(two(6).into());
        cases.push(Case {
            settings: Settings {
                resolution: two(0).into(),
                auto_feed: head[10].into(),
                width: two(8).into(),
            },
            allowance: two(2).into(),
            room: two(4).into(),
            input,
        });
        rest = after;
    }
    cases
}

/// The lines of a case: records, and the answers that are not 0. `most` is the
/// most bytes that a call is given.
fn lines<S>(
    case: &Case,
    most: usize,
    (answer, mut state): (u8, S),
    read: impl Fn(&mut S, &[u8], usize, &mut [u8]) -> Numbers,
) -> String {
    let mut lines = String::new();
    let say = |answer: u8| match answer {
        0 => String::new(),
        _ => format!("answer {answer}\n"),
    };
    lines += &say(answer);
    let mut rest = case.input;
    loop {
        let piece = &rest[..rest.len().min(most)];
        let mut out = vec![0; case.room];
        let (answer, count, written) = read(&mut state, piece, case.allowance, &mut out);
        for record in out[..written].chunks(RECORD_SIZE) {
            let hex = record.iter().map(|byte| format!("{byte:02x}"));
            let _ = writeln!(lines, "{}", hex.collect::<String>());
        }
        lines += &say(answer);
        rest = &rest[count..];
        if rest.is_empty() || count == 0 {
            return lines;
        }
    }
}

/// The lines that the library gives.
fn proved(case: &Case, most: usize) -> String {
    let (answer, state) = State::start(&case.settings);
    let start = (answer.number(), state);
    lines(case, most, start, |state, input, allowance, out| {
        let report = state.read(input, allowance, out);
        (report.answer.number(), report.read, report.written)
    })
}

/// The lines that one of the plain readers gives.
fn plain(
    case: &Case,
    most: usize,
    read: fn(&mut plain_reader::State, &[u8], usize, &mut [u8]) -> plain_reader::Report,
) -> String {
    let Settings {
        resolution,
        auto_feed,
        width,
    } = case.settings;
    let start = plain_reader::start(resolution, auto_feed != 0, width);
    lines(case, most, start, |state, input, allowance, out| {
        let report = read(state, input, allowance, out);
        (report.answer, report.read, report.written)
    })
}

/// The lines expected of each case: they end with an empty one.
fn expected() -> Vec<String> {
    let mut all = vec![String::new()];
    for line in EXPECTED.lines() {
        match line {
            "" => all.push(String::new()),
            _ => *all.last_mut().unwrap() += &format!("{line}\n"),
        }
    }
    assert_eq!(all.pop().unwrap(), "");
    all
}

#[test]
fn all_readers_give_the_expected_lines() {
    let cases = cases();
    let expected = expected();
    assert!(cases.len() > 600, "{}", cases.len());
    assert_eq!(cases.len(), expected.len());
    for (case, lines) in cases.iter().zip(expected) {
        let input = case.input;
        assert_eq!(proved(case, usize::MAX), lines, "{input:02x?}");
        assert_eq!(
            plain(case, usize::MAX, plain_reader::read),
            lines,
            "{input:02x?}"
        );
        assert_eq!(
            plain(case, usize::MAX, plain_reader::read_in_runs),
            lines,
            "{input:02x?}"
        );
    }
}

/// In pieces of every small length, where allowance and room are enough.
#[test]
fn pieces_give_the_same_lines() {
    let whole = |case: &&Case| case.allowance == 65_535 && case.room > 10_000;
    let cases = cases();
    let cases: Vec<&Case> = cases.iter().filter(whole).collect();
    assert!(cases.len() > 580, "{}", cases.len());
    for case in cases {
        let lines = proved(case, usize::MAX);
        for most in [1, 2, 3, 5, 16] {
            assert_eq!(proved(case, most), lines);
            assert_eq!(plain(case, most, plain_reader::read), lines);
            assert_eq!(plain(case, most, plain_reader::read_in_runs), lines);
        }
    }
}
