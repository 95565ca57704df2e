//! Cards as text, to be read and replayed, and what came back in words.
//!
//! ```text
//! card ROOM PIECE     the room, and how many bytes are read at a time
//! HEX                 the letters, a line of five bytes each; what is past
//!                     the last whole letter has a line of its own
//! ```

use super::{Answer, Answers, Card, Difference};
use crate::slots::text::bytes;
use crate::tell;
use ierbulosc::LETTER_SIZE;
use std::fmt::Write;

/// The card as text.
pub fn text(card: &Card) -> String {
    let mut text = format!("card {} {}\n", card.room, card.piece);
    for letter in card.letters.chunks(LETTER_SIZE) {
        let _ = writeln!(text, "{}", hex(letter));
    }
    text
}

fn hex(bytes: &[u8]) -> String {
    bytes.iter().map(|byte| format!("{byte:02x}")).collect()
}

/// Whether a text is about a card.
pub fn is_card(text: &str) -> bool {
    text.split_whitespace().next() == Some("card")
}

/// The card that a text tells, or the line that it does not.
pub fn card(text: &str) -> Result<Card, String> {
    let mut lines = text.lines().filter(|line| !line.trim().is_empty());
    let wrong = |line: &str| format!("not a line of a card: {line}");
    let first = lines.next().unwrap_or_default();
    let (room, piece) = numbers(first).ok_or_else(|| wrong(first))?;
    let mut letters = Vec::new();
    for line in lines {
        letters.extend(bytes(line.trim()).ok_or_else(|| wrong(line))?);
    }
    Ok(Card {
        letters,
        room,
        piece,
    })
}

fn numbers(line: &str) -> Option<(usize, usize)> {
    let words: Vec<&str> = line.split_whitespace().collect();
    match *words.as_slice() {
        ["card", room, piece] => Some((room.parse().ok()?, piece.parse().ok()?)),
        _ => None,
    }
}

/// What both writers came back with, in words.
pub fn both(answers: &Answers) -> String {
    let touched = match answers.touched {
        true => "the list, or what stands beside it, the output or the count, is touched\n",
        false => "",
    };
    format!(
        "plain:  {}proved: {}{touched}",
        answer(&answers.plain),
        answer(&answers.proved)
    )
}

fn answer(answer: &Answer) -> String {
    let Answer {
        number,
        written,
        out,
    } = answer;
    let bytes = out.get(..*written).unwrap_or(out);
    format!("number {number}, {written} bytes: {}\n", hex(bytes))
}

/// The difference in words.
pub fn difference(difference: &Difference) -> String {
    match difference {
        Difference::Written(answers) => both(answers),
        Difference::Read(found) => format!("in reading it, {}", tell::difference(found)),
        Difference::Letters(dots) => format!("at {dots} dots it does not read as its letters\n"),
    }
}
