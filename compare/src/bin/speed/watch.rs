//! The library's instructions held to written limits: for a byte read, for a
//! call that asks what stands in a range of columns, and for a letter written;
//! and its stack to its own.

use crate::counts::count;
use crate::readers::{subjects, Reader, Subject};
use crate::{cards, slots, stack, Problem};
use std::fmt::Write;

/// How far above its limit a count may be.
const TOLERATED: f64 = 1.10;

const HEAD: &str = "\
# The proved library's instructions, as callgrind counts them. For a byte: input, dots, bytes of a piece, instructions. For
# a call that asks what stands in a range of columns: slot, list, records, instructions. For a letter of a card: write,
# card, letters, instructions.
# The gate fails where one is exceeded by over a tenth. Written by: compare/watch --write
";

/// All that is held to a limit, by name, with its present count.
fn counts() -> Result<Vec<(String, f64)>, Problem> {
    let subjects = subjects();
    let bytes = subjects.iter().map(name).zip(count(&[Reader::Proved])?);
    let counts = slots::count()?;
    slots::no_longer_search(&counts)?;
    let lists = slots::lists();
    let calls = lists.iter().map(slots::List::name).zip(counts);
    let letters = cards::CARDS.iter().map(cards::Card::name);
    let letters = letters.zip(cards::count()?);
    Ok(bytes.chain(calls).chain(letters).collect())
}

/// Writes the present counts.
pub fn write(file: &str) -> Result<(), Problem> {
    let mut text = HEAD.to_string();
    for (name, count) in counts()? {
        let _ = writeln!(text, "{name} {count:.1}");
    }
    std::fs::write(file, text).map_err(|error| format!("{file}: {error}"))
}

/// Fails where a count is too far above its limit, or has none, and where a
/// reading call takes too much stack.
pub fn watch(file: &str) -> Result<(), Problem> {
    let text = std::fs::read_to_string(file).map_err(|error| format!("{file}: {error}"))?;
    let counts = counts()?;
    let mut exceeded = String::new();
    for (name, count) in &counts {
        let limit = limit(&text, name)?;
        if *count > TOLERATED * limit {
            let _ = write!(exceeded, "\n  {name}: {count:.1}, the limit is {limit:.1}");
        }
    }
    if !exceeded.is_empty() {
        return Err(format!(
            "over a tenth more instructions than the limit of {file}, for a byte (input, dots, \
             bytes of a piece), a call (slot, list, records) or a letter (write, card, \
             letters):{exceeded}"
        ));
    }
    let deep = stack::watch()?;
    let (bytes, calls, cards) = (subjects().len(), slots::lists().len(), cards::CARDS.len());
    println!(
        "speed: instructions within a tenth of their limits, for a byte on all {bytes} inputs, for a \
         slot in all {calls} lists and for a letter of all {cards} cards; the answer among the newest \
         ten costs no more in longer lists; {deep} bytes of stack below a reading call"
    );
    Ok(())
}

fn name(subject: &Subject) -> String {
    format!("{} {} {}", subject.input, subject.dots, subject.piece)
}

/// The limit of this name.
fn limit(text: &str, name: &str) -> Result<f64, Problem> {
    let mut lines = text.lines();
    let limit = lines.find_map(|line| line.strip_prefix(name)?.strip_prefix(' ')?.parse().ok());
    limit.ok_or_else(|| format!("no limit for {name}: compare/watch --write writes them"))
}
