//! Measures the proved reader and both plain ones side by side on equal
//! inputs: times, instructions, and the proved reader's stack; what it costs
//! to ask a list of records what stands in a range of columns; and what it
//! costs to write a card, by the library and by the plain writer.

mod cards;
mod counts;
mod readers;
mod slots;
mod stack;
mod tables;
mod times;
mod watch;

use readers::Reader;
use std::process::ExitCode;

const HELP: &str = "\
speed: measures the proved reader, the plain one byte by byte, and the plain one in runs

    speed                  all five below, as Markdown tables
    speed --times          megabytes in a second, best of several alternating runs, and ratios of times
    speed --instructions   instructions for a byte, counted by callgrind, and ratios
    speed --stack          bytes of stack of the calls of the proved reader
    speed --slots          instructions and nanoseconds of a call that asks what stands in a range
                           of columns, by how far it has to look
    speed --cards          instructions and letters in a second of writing a card, beside the
                           plain writer
    speed --watch FILE     fails where the library takes over a tenth more instructions for a byte,
                           for what stands in a range of columns, or for a letter written, than the
                           file's limit, or where such a question takes more in a longer list with
                           the answer among the newest ten; or where a reading call takes
                           over 512 bytes of stack
    speed --write FILE     writes what it takes now into the file, as the limits
    speed --runs READER..  one run of each reader on each input, to be counted
    speed --slot-calls     one such question of each list, to be counted
    speed --card-calls     each card written once by each writer, to be counted
    speed --help           this text

READER is proved, plain or runs.
";

const BAD_USAGE: u8 = 2;

/// Why something could not be measured, or was not as it should be.
type Problem = String;

fn main() -> ExitCode {
    let arguments: Vec<String> = std::env::args_os()
        .skip(1)
        .map(|argument| argument.to_string_lossy().into_owned())
        .collect();
    let words: Vec<&str> = arguments.iter().map(String::as_str).collect();
    let done = match *words.as_slice() {
        [] => all(),
        ["--help"] => {
            print!("{HELP}");
            Ok(())
        }
        ["--times"] => times::print(),
        ["--instructions"] => counts::print(),
        ["--stack"] => stack::print(),
        ["--slots"] => slots::print(),
        ["--cards"] => cards::print(),
        ["--slot-calls"] => slots::run(),
        ["--card-calls"] => cards::run(),
        ["--watch", file] => watch::watch(file),
        ["--write", file] => watch::write(file),
        ["--runs", ref names @ ..] if names.iter().all(|name| Reader::named(name).is_some()) => {
            let readers: Vec<Reader> = names.iter().filter_map(|n| Reader::named(n)).collect();
            counts::run(&readers)
        }
        _ => {
            eprintln!("speed: bad arguments; see speed --help");
            return ExitCode::from(BAD_USAGE);
        }
    };
    match done {
        Ok(()) => ExitCode::SUCCESS,
        Err(problem) => {
            eprintln!("speed: {problem}");
            ExitCode::FAILURE
        }
    }
}

/// All tables. Where instructions cannot be counted, the line says so in
/// their place.
fn all() -> Result<(), Problem> {
    times::print()?;
    println!();
    if let Err(problem) = counts::print() {
        println!("Instructions are not counted: {problem}.");
    }
    println!();
    stack::print()?;
    println!();
    slots::print()?;
    println!();
    cards::print()
}
