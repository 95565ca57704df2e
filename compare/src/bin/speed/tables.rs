//! The tables' common form: a line for each subject, a number and two ratios
//! for the readers.

use crate::readers::Subject;

/// Prints the head; `of` is what the numbers are.
pub fn head(of: &str, ratio: &str) {
    println!(
        "| Piece | Dots | Input | Proved, {of} | Plain, {of} | In runs, {of} | \
         {ratio}, proved / plain | Proved / in runs |"
    );
    println!("|---:|---:|---|---:|---:|---:|---:|---:|");
}

/// Prints a line: the numbers as shown, and the costs that the ratios are of.
pub fn line(subject: &Subject, shown: [String; 3], [proved, plain, runs]: [f64; 3]) {
    let Subject { input, dots, piece } = subject;
    println!(
        "| {piece} | {dots} | {input} | {} | {:.2} | {:.2} |",
        shown.join(" | "),
        proved / plain,
        proved / runs
    );
}
