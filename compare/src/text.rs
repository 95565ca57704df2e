//! Cases as text, to be read and replayed: one line for each call, and before
//! them the state to begin from, if it is not a start.
//!
//! ```text
//! start DOTS on|off|NUMBER    a start, with or without automatic line feed, or
//!                             with this number that says so, on the widest
//! start .. WIDTH              paper, or with this number that says another
//! state                       from the power-on state of 300 dots,
//! set REGISTER NUMBER         but with this register so
//! read ALLOWANCE ROOM HEX..   a reading call: allowance, output length, input
//! ```

use crate::calls::Call;
use crate::fields;
use crate::hold::Case;
use crate::WIDEST;
use ierbulosc::{Settings, State as Registers};
use std::fmt::Write;

/// The case as text.
pub fn text(case: &Case) -> String {
    let mut text = String::new();
    if let Some(state) = &case.state {
        text.push_str("state\n");
        let (_, power_on) = Registers::start(&Settings::default());
        for (name, number, _) in fields::differing(state, &power_on) {
            let _ = writeln!(text, "set {name} {number}");
        }
    }
    for call in &case.calls {
        text.push_str(&call_text(call));
        text.push('\n');
    }
    text
}

fn call_text(call: &Call) -> String {
    match call {
        Call::Start(settings) => {
            let feed = match settings.auto_feed {
                0 => "off".to_string(),
                1 => "on".to_string(),
                number => number.to_string(),
            };
            let start = format!("start {} {feed}", settings.resolution);
            match settings.width {
                WIDEST => start,
                width => format!("{start} {width}"),
            }
        }
        Call::Read {
            input,
            allowance,
            room,
        } => {
            let mut text = format!("read {allowance} {room}");
            for byte in input {
                let _ = write!(text, " {byte:02X}");
            }
            text
        }
    }
}

/// The case that a text tells, or the line that it does not.
pub fn case(text: &str) -> Result<Case, String> {
    let mut case = Case {
        state: None,
        calls: Vec::new(),
    };
    for line in text.lines().filter(|line| !line.trim().is_empty()) {
        take_line(&mut case, line).ok_or_else(|| format!("not a line of a case: {line}"))?;
    }
    Ok(case)
}

fn take_line(case: &mut Case, line: &str) -> Option<()> {
    let words: Vec<&str> = line.split_whitespace().collect();
    match *words.as_slice() {
        ["state"] if case.state.is_none() && case.calls.is_empty() => {
            case.state = Some(Registers::start(&Settings::default()).1);
        }
        ["set", name, number] if case.calls.is_empty() => {
            fields::set(case.state.as_mut()?, name, number.parse().ok()?)?;
        }
        ["start", dots, feed] => case.calls.push(a_start(dots, feed, WIDEST)?),
        ["start", dots, feed, width] => {
            case.calls.push(a_start(dots, feed, width.parse().ok()?)?);
        }
        ["read", allowance, room, ref bytes @ ..] => case.calls.push(Call::Read {
            input: bytes.iter().map(|byte| hex(byte)).collect::<Option<_>>()?,
            allowance: allowance.parse().ok()?,
            room: room.parse().ok()?,
        }),
        _ => return None,
    }
    Some(())
}

fn a_start(dots: &str, feed: &str, width: u32) -> Option<Call> {
    Some(Call::Start(Settings {
        resolution: dots.parse().ok()?,
        auto_feed: match feed {
            "on" => 1,
            "off" => 0,
            number => number.parse().ok()?,
        },
        width,
    }))
}

fn hex(byte: &str) -> Option<u8> {
    let digits = byte.len() == 2 && byte.bytes().all(|digit| digit.is_ascii_hexdigit());
    digits.then(|| u8::from_str_radix(byte, 16).ok()).flatten()
}
