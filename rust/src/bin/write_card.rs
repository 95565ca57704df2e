//! Writes a card as ESC/P from lines of text with places; see
//! `write_card --help`.

use ierbulosc::{card_room, write, Answer, Letter};
use std::ffi::OsString;
use std::io::{self, ErrorKind, Read, Write};
use std::process::ExitCode;

const HELP: &str = "\
write_card [FILE] > CARD

Writes a card as ESC/P that begins with ESC @ and that escp and card, at full width and with
automatic line feed off, read as these letters at exactly these places, plain and in 10 cpi.

FILE, or standard input without it, has lines of

    ACROSS DOWN TEXT

ACROSS and DOWN are distances from the left of the paper and from the top of the page:

    14400        in units of 1/3600 inch
    4in, 1.5in   in inches
    40col        ACROSS, in columns of 1/10 inch
    3line        DOWN, in lines of 1/6 inch

TEXT is all after one space. It begins there, and its letters, spaces too, stand 360 units apart.
Places must be multiples of 20 units, across at most 28440, down at most 39580, and no line above
the one before. Letters are 20h to 7Eh. Empty lines and lines that begin with # count for nothing.

    --help       this text
    --version    the version

Where a line or a letter is refused, nothing is written: one line on standard error says which, and
why, and the exit status is 1. It is 2 for bad usage.
";

/// The width of a letter of 10 cpi, and the height of a line, in units.
const COLUMN: u16 = 360;
const LINE: u16 = 600;

/// A distance's own unit besides the inch.
type Unit = (&'static str, u16);

enum Task {
    Say(&'static str),
    Write(Option<OsString>),
}

fn main() -> ExitCode {
    let words: Vec<OsString> = std::env::args_os().skip(1).collect();
    let task = match task(&words) {
        Ok(task) => task,
        Err(problem) => return complain(&problem, 2),
    };
    let done = match task {
        Task::Say(text) => print(text.as_bytes()),
        Task::Write(file) => input(file).and_then(|text| print(&card(&text)?)),
    };
    match done {
        Ok(()) => ExitCode::SUCCESS,
        Err(problem) => complain(&problem, 1),
    }
}

/// A line on standard error; where that is closed, there is no one to tell.
fn complain(problem: &str, status: u8) -> ExitCode {
    let _ = writeln!(io::stderr(), "write_card: {problem}");
    ExitCode::from(status)
}

fn task(words: &[OsString]) -> Result<Task, String> {
    let [word] = words else {
        return match words.len() {
            0 => Ok(Task::Write(None)),
            _ => Err("takes one file; see write_card --help".to_string()),
        };
    };
    match word.to_string_lossy().as_ref() {
        "--help" => Ok(Task::Say(HELP)),
        "--version" => Ok(Task::Say(concat!(
            "write_card ",
            env!("CARGO_PKG_VERSION"),
            "\n"
        ))),
        option if option.starts_with('-') => {
            Err(format!("bad argument {option:?}; see write_card --help"))
        }
        _ => Ok(Task::Write(Some(word.clone()))),
    }
}

/// All of a file, or of standard input.
fn input(file: Option<OsString>) -> Result<Vec<u8>, String> {
    let mut text = Vec::new();
    let read = match &file {
        Some(file) => std::fs::File::open(file).and_then(|mut file| file.read_to_end(&mut text)),
        None => io::stdin().lock().read_to_end(&mut text),
    };
    let name = || match &file {
        Some(file) => file.to_string_lossy().into_owned(),
        None => "standard input".to_string(),
    };
    read.map_err(|error| format!("{}: {error}", name()))?;
    Ok(text)
}

/// Writes to standard output; that no one reads it any longer is no failure.
fn print(bytes: &[u8]) -> Result<(), String> {
    let mut out = io::stdout().lock();
    match out.write_all(bytes).and_then(|()| out.flush()) {
        Err(error) if error.kind() != ErrorKind::BrokenPipe => {
            Err(format!("standard output: {error}"))
        }
        _ => Ok(()),
    }
}

/// The card of a text, or the line that it is refused for, and why.
fn card(text: &[u8]) -> Result<Vec<u8>, String> {
    let mut letters = Vec::new();
    // The line of each letter.
    let mut lines = Vec::new();
    for (number, line) in (1..).zip(text.split(|&byte| byte == b'\n')) {
        let line = line.trim_ascii_start();
        if line.is_empty() || line.starts_with(b"#") {
            continue;
        }
        let line = line.strip_suffix(b"\r").unwrap_or(line);
        add(line, &mut letters).map_err(|why| format!("line {number}: {why}"))?;
        lines.resize(letters.len(), number);
    }
    let mut room = vec![0; card_room(letters.len())];
    let (answer, card) = write(&letters, &mut room);
    if answer == Answer::Done {
        return Ok(card.to_vec());
    }
    let at = first_refused(&letters);
    let why = why(answer, &letters, at);
    Err(format!(
        "line {}, letter {} of the card: {why}",
        lines[at],
        at + 1
    ))
}

/// Adds the letters of a line, or says what is wrong with it.
fn add(line: &[u8], letters: &mut Vec<Letter>) -> Result<(), String> {
    let form = || "not of the form ACROSS DOWN TEXT".to_string();
    let is_blank = |&byte: &u8| byte == b' ' || byte == b'\t';
    let end = line.iter().position(is_blank).ok_or_else(form)?;
    let (across, rest) = (&line[..end], line[end..].trim_ascii_start());
    let end = rest.iter().position(is_blank).ok_or_else(form)?;
    let (down, text) = (&rest[..end], &rest[end + 1..]);
    if text.is_empty() {
        return Err(form());
    }
    let across = distance(across, ("col", COLUMN))?;
    let down = distance(down, ("line", LINE))?;
    let places = (u32::from(across)..).step_by(COLUMN.into());
    for (&byte, across) in text.iter().zip(places) {
        // What is past all places is refused in any case.
        let across = u16::try_from(across).unwrap_or(u16::MAX);
        letters.push(Letter::new(byte, across, down));
    }
    Ok(())
}

/// A distance in units.
fn distance(word: &[u8], unit: Unit) -> Result<u16, String> {
    let word = String::from_utf8_lossy(word);
    let (number, each) = match (word.strip_suffix("in"), word.strip_suffix(unit.0)) {
        (Some(inches), _) => (inches, 3_600),
        (None, Some(number)) => (number, unit.1),
        (None, None) => (&*word, 1),
    };
    units(number, each.into()).ok_or_else(|| {
        format!(
            "{word:?} is no whole number of units from 0 to 65535; \
             it may end in \"in\" or {:?}",
            unit.0
        )
    })
}

/// So many times a unit, which is to be whole.
fn units(number: &str, each: u64) -> Option<u16> {
    let (whole, part) = match number.split_once('.') {
        Some((_, "")) => return None,
        Some(parts) => parts,
        None => (number, ""),
    };
    let digits = [whole, part].concat();
    let good = !whole.is_empty() && digits.bytes().all(|digit| digit.is_ascii_digit());
    let number: u64 = digits.parse().ok().filter(|_| good)?;
    let parts = 10_u64.checked_pow(part.len().try_into().ok()?)?;
    let units = number.checked_mul(each)?;
    let whole = (units % parts == 0).then_some(units / parts)?;
    u16::try_from(whole).ok()
}

/// The number of the first bad letter, counted from 0. There is one, and it
/// decides, so that the letters before it can be written and no more can.
fn first_refused(letters: &[Letter]) -> usize {
    let mut room = vec![0; card_room(letters.len())];
    let (mut good, mut bad) = (0, letters.len());
    while bad - good > 1 {
        let middle = good + (bad - good) / 2;
        match write(&letters[..middle], &mut room).0 {
            Answer::Done => good = middle,
            _ => bad = middle,
        }
    }
    good
}

/// Why a letter is refused, in words.
fn why(answer: Answer, letters: &[Letter], at: usize) -> String {
    let letter = letters[at];
    let (byte, across, down) = (letter.byte(), letter.across(), letter.down());
    if answer == Answer::ByteRefused {
        return format!("byte {byte:02X}h is not from 20h to 7Eh");
    }
    let before = at.checked_sub(1).map_or(0, |at| letters[at].down());
    let broken = match () {
        () if across % 20 != 0 => format!("{across} across is no multiple of 20"),
        () if across > 28_440 => format!("{across} across is past 28440"),
        () if down % 20 != 0 => format!("{down} down is no multiple of 20"),
        () if down > 39_580 => format!("{down} down is past 39580"),
        () => format!("{down} down is above the letter before it, at {before}"),
    };
    format!("{:?}: {broken}", char::from(byte))
}
