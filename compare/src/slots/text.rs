//! Questions as text, to be read and replayed, and answers in words.
//!
//! ```text
//! slot FROM TO     the range of columns
//! HEX              the records, a line each, as `escp` writes them; what is
//!                  past the last whole record has a line of its own
//! ```

use super::{Answer, Answers, Question};
use crate::record::RECORD_SIZE;
use std::fmt::Write;

/// The question as text.
pub fn text(question: &Question) -> String {
    let mut text = format!("slot {} {}\n", question.from, question.to);
    for record in question.records.chunks(RECORD_SIZE) {
        let hex = record.iter().map(|byte| format!("{byte:02x}"));
        let _ = writeln!(text, "{}", hex.collect::<String>());
    }
    text
}

/// Whether a text is about a question, not about a case.
pub fn is_question(text: &str) -> bool {
    text.split_whitespace().next() == Some("slot")
}

/// The question that a text tells, or the line that it does not.
pub fn question(text: &str) -> Result<Question, String> {
    let mut lines = text.lines().filter(|line| !line.trim().is_empty());
    let wrong = |line: &str| format!("not a line of a question: {line}");
    let first = lines.next().unwrap_or_default();
    let (from, to) = range(first).ok_or_else(|| wrong(first))?;
    let mut records = Vec::new();
    for line in lines {
        records.extend(bytes(line.trim()).ok_or_else(|| wrong(line))?);
    }
    Ok(Question { records, from, to })
}

fn range(line: &str) -> Option<(u16, u16)> {
    let words: Vec<&str> = line.split_whitespace().collect();
    match *words.as_slice() {
        ["slot", from, to] => Some((from.parse().ok()?, to.parse().ok()?)),
        _ => None,
    }
}

/// The bytes that a line's digits stand for.
pub fn bytes(line: &str) -> Option<Vec<u8>> {
    let digits: Option<Vec<u8>> = line
        .chars()
        .map(|digit| Some(digit.to_digit(16)? as u8))
        .collect();
    let digits = digits.filter(|digits| digits.len() % 2 == 0)?;
    let pairs = digits.chunks_exact(2);
    Some(pairs.map(|pair| 16 * pair[0] + pair[1]).collect())
}

/// What both came back with, in words.
pub fn both(answers: &Answers) -> String {
    let touched = match answers.touched {
        true => "the list, or what stands beside it or the part, is touched\n",
        false => "",
    };
    format!(
        "plain:  {}proved: {}{touched}",
        answer(&answers.plain),
        answer(&answers.proved)
    )
}

fn answer(answer: &Answer) -> String {
    let Answer {
        number,
        start,
        length,
    } = answer;
    format!("number {number}, part of {length} bytes from byte {start}\n")
}
