//! The states of cases/states.txt, just inside and just outside of each bound,
//! and the words that cases set registers by.

use crate::fields::set;
use crate::registers::follows;
use ierbulosc::{Settings, State};

const STATES: &str = include_str!("../../cases/states.txt");

/// The registers of what is waited for.
const WAITING: [&str; 6] = [
    "kind",
    "command",
    "argument",
    "image_mode",
    "image_byte",
    "image_columns",
];

/// The states, each with the word before it: accepted, refused or no-state.
/// None where a line is none of a state.
pub fn states() -> Option<Vec<(&'static str, State)>> {
    let state = |words: Vec<&'static str>| {
        let (_, mut state) = State::start(&Settings::default());
        set_all(&mut state, &words[1..])?;
        Some((words[0], follows(&state)))
    };
    lines(STATES).map(state).collect()
}

/// The words of each line that is not empty and no comment.
pub fn lines(text: &str) -> impl Iterator<Item = Vec<&str>> {
    let lines = text.lines().filter(|line| !line.starts_with('#'));
    let words = lines.map(|line| line.split_whitespace().collect::<Vec<_>>());
    words.filter(|words| !words.is_empty())
}

/// A number, in hex after 0x.
pub fn number(word: &str) -> Option<u32> {
    match word.strip_prefix("0x") {
        Some(hex) => u32::from_str_radix(hex, 16).ok(),
        None => word.parse().ok(),
    }
}

/// A list of stops: numbers and ranges, or none.
fn stops(word: &str) -> Option<Vec<u32>> {
    let mut stops = Vec::new();
    for part in word.split(',').filter(|&part| part != "none") {
        let (first, last) = part.split_once('-').unwrap_or((part, part));
        stops.extend(number(first)?..=number(last)?);
    }
    Some(stops)
}

/// A vertical channel by its name, `channels.3`.
fn channel(name: &str) -> Option<usize> {
    name.strip_prefix("channels.")?.parse().ok()
}

/// Sets the places of a list from one on, and those past it to 0.
fn set_stops(state: &mut State, list: &str, from: usize, room: usize, held: &[u32]) -> Option<()> {
    for slot in 0..room {
        let stop = held.get(slot).copied().unwrap_or(0);
        set(state, &format!("{list}.stops[{}]", from + slot), stop)?;
    }
    Some(())
}

/// Sets the registers that pairs of words name: a list of stops, or a
/// channel's, with its count, which may be named after it; what is waited for,
/// all of it.
pub fn set_all(state: &mut State, words: &[&str]) -> Option<()> {
    if words.contains(&"kind") {
        for name in WAITING {
            set(state, name, 0)?;
        }
    }
    for pair in words.chunks(2) {
        let &[name, value] = pair else { return None };
        if let Some(m) = channel(name) {
            let held = stops(value)?;
            let count = held.len() as u32 + 1;
            set(state, &format!("channels.counts[{m}]"), count)?;
            set_stops(state, "channels", 16 * m, 16, &held)?;
        } else if let Some(m) = name.strip_suffix(".count").and_then(channel) {
            set(state, &format!("channels.counts[{m}]"), number(value)?)?;
        } else if ["columns", "gathered"].contains(&name) {
            let held = stops(value)?;
            set(state, &format!("{name}.count"), held.len() as u32)?;
            set_stops(state, name, 0, 32, &held)?;
        } else {
            set(state, name, number(value)?)?;
        }
    }
    Some(())
}
