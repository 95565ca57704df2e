//! The program `write_card`: what it writes, what `card` shows of it, and what
//! it refuses.

use std::io::Write;
use std::process::{Command, Output, Stdio};

/// Runs a program on an input.
fn run(program: &str, words: &[&str], input: &[u8]) -> Output {
    let mut program = Command::new(program)
        .args(words)
        .stdin(Stdio::piped())
        .stdout(Stdio::piped())
        .stderr(Stdio::piped())
        .spawn()
        .unwrap();
    // A program that does not read has perhaps ended.
    let _ = program.stdin.take().unwrap().write_all(input);
    program.wait_with_output().unwrap()
}

fn write_card(words: &[&str], input: &[u8]) -> Output {
    run(env!("CARGO_BIN_EXE_write_card"), words, input)
}

/// The card of an input.
fn card(input: &[u8]) -> Vec<u8> {
    let output = write_card(&[], input);
    let said = String::from_utf8_lossy(&output.stderr);
    assert_eq!(said, "");
    assert_eq!(output.status.code(), Some(0));
    output.stdout
}

/// The one line of standard error; nothing is written.
fn refused(words: &[&str], input: &[u8], status: i32) -> String {
    let output = write_card(words, input);
    let line = String::from_utf8(output.stderr).unwrap();
    assert_eq!(output.status.code(), Some(status), "{line}");
    assert!(output.stdout.is_empty());
    let line = line.strip_suffix('\n').unwrap();
    assert!(!line.contains('\n'), "{line}");
    line.strip_prefix("write_card: ").unwrap().to_string()
}

/// A word is its letters, 360 units apart.
const AB: &[u8] = b"\x1B@\x1BJ\x1E\x1B$\x00\x00\x1B\\\x01\x00A\x1B$\x06\x00\x1B\\\x01\x00B";

#[test]
fn lines_of_text() {
    assert_eq!(card(b""), b"\x1B@");
    assert_eq!(card(b"\n\r\n  \n# 0 0 A\n  # A"), b"\x1B@");
    assert_eq!(card(b"20 600 AB\n"), AB);
    assert_eq!(card(b"20 600 A\r\n\n380 600 B"), AB);
    assert_eq!(card(b" 20\t  600\tAB"), AB);
    assert_eq!(card(b"0 0  "), b"\x1B@\x1B$\x00\x00 ");
    assert_eq!(card(b"0 0  #"), b"\x1B@\x1B$\x00\x00 \x1B$\x06\x00#");
}

#[test]
fn inches_columns_and_lines() {
    let at = |across: &str, down: &str| card(format!("{across} {down} A\n").as_bytes());
    let due = at("5400", "1200");
    assert_eq!(due, b"\x1B@\x1BJ\x3C\x1B$\x5A\x00A");
    for across in ["5400", "5400.0", "1.5in", "1.50in", "15col", "15.0col"] {
        for down in ["1200", "2line", "2.0line", "00002line"] {
            assert_eq!(at(across, down), due, "{across} {down}");
        }
    }
    assert_eq!(at("0in", "0.5in"), at("0col", "3line"));
    assert_eq!(at("7.9in", "0"), at("28440", "0"));
}

#[test]
fn a_file() {
    let file = concat!(env!("CARGO_TARGET_TMPDIR"), "/letters");
    std::fs::write(file, "0 0 A\n").unwrap();
    let output = write_card(&[file], b"0 0 B\n");
    assert_eq!(output.status.code(), Some(0));
    assert_eq!(output.stdout, b"\x1B@\x1B$\x00\x00A");
    assert!(refused(&["/no/such/file"], b"", 1).starts_with("/no/such/file: "));
}

/// What is written, `card` shows.
#[test]
fn card_shows_it() {
    let card = card(
        b"# slots at columns 10, 20 and 30\n\
          0 0 SLOT\n10col 0 1\n20col 0 2\n30col 0 3\n\
          0 1line STATE\n10col 1line LOCKED\n20col 1line RELEASED\n\
          0 3line H2O 4.2 m\n",
    );
    let shown = run(env!("CARGO_BIN_EXE_card"), &[], &card);
    assert_eq!(String::from_utf8_lossy(&shown.stderr), "");
    let text = "SLOT      1         2         3\n\
                STATE     LOCKED    RELEASED\n\
                \n\
                H2O 4.2 m\n";
    assert_eq!(String::from_utf8_lossy(&shown.stdout), text);
    let slots = run(env!("CARGO_BIN_EXE_card"), &["--slots", "10,20,30"], &card);
    let said = String::from_utf8_lossy(&slots.stdout).into_owned();
    assert!(
        said.contains("slot 2 (electricians: 1)  RELEASED"),
        "{said}"
    );
}

#[test]
fn lines_without_the_form() {
    for line in ["A", "0 0", "0 0 ", "0 0\t", "0", "10col", "0 0A"] {
        let said = refused(&[], format!("0 0 A\n\n{line}\n").as_bytes(), 1);
        assert_eq!(said, "line 3: not of the form ACROSS DOWN TEXT", "{line:?}");
    }
}

#[test]
fn distances_that_are_none() {
    for (line, word, unit) in [
        ("-20 0 A", "-20", "col"),
        ("+20 0 A", "+20", "col"),
        ("65536 0 A", "65536", "col"),
        ("99999999999999999999 0 A", "99999999999999999999", "col"),
        ("1.5 0 A", "1.5", "col"),
        ("1.in 0 A", "1.in", "col"),
        (".5in 0 A", ".5in", "col"),
        ("1.0001in 0 A", "1.0001in", "col"),
        ("in 0 A", "in", "col"),
        ("2line 0 A", "2line", "col"),
        ("0 2col A", "2col", "line"),
        ("0 0x10 A", "0x10", "line"),
    ] {
        let said = refused(&[], format!("0 0 A\n{line}\n").as_bytes(), 1);
        let due = format!("line 2: {word:?} is no whole number of units from 0 to 65535");
        let form = format!("{due}; it may end in \"in\" or {unit:?}");
        assert_eq!(said, form);
    }
}

#[test]
fn letters_that_are_refused() {
    for (line, letter, why) in [
        ("0 0 A\tB", 8, "byte 09h is not from 20h to 7Eh"),
        ("0 0 \u{E9}", 7, "byte C3h is not from 20h to 7Eh"),
        ("0 0 \x7F", 7, "byte 7Fh is not from 20h to 7Eh"),
        ("10 0 \x1F", 7, "byte 1Fh is not from 20h to 7Eh"),
        ("10 0 A", 7, "'A': 10 across is no multiple of 20"),
        ("28440 0 AB", 8, "'B': 28800 across is past 28440"),
        ("0 10 A", 7, "'A': 10 down is no multiple of 20"),
        ("0 39600 A", 7, "'A': 39600 down is past 39580"),
    ] {
        let input = format!("0 0 one\n0 0 two\n{line}\n0 0 \x7F\n");
        let said = refused(&[], input.as_bytes(), 1);
        assert_eq!(said, format!("line 3, letter {letter} of the card: {why}"));
    }
    let falls = "line 2, letter 2 of the card: 'B': 0 down is above the letter before it, at 20";
    assert_eq!(refused(&[], b"0 20 A\n0 0 B\n", 1), falls);
    let long = [b"0 0 ", &[b'A'; 70_000][..]].concat();
    let said = "line 1, letter 81 of the card: 'A': 28800 across is past 28440";
    assert_eq!(refused(&[], &long, 1), said);
}

#[test]
fn usage() {
    for words in [&["one", "two"][..], &["--what"], &["-h"], &["--help", "x"]] {
        refused(words, b"", 2);
    }
    let help = write_card(&["--help"], b"");
    assert_eq!(help.status.code(), Some(0));
    assert!(help.stdout.starts_with(b"write_card [FILE] > CARD\n"));
    let lines = String::from_utf8(help.stdout).unwrap();
    assert!(lines.lines().all(|line| line.len() <= 100), "{lines}");
    let version = write_card(&["--version"], b"").stdout;
    assert!(version.starts_with(b"write_card "));
}

/// Where the card cannot be written, one line says so.
#[test]
fn output_that_fails() {
    let full = std::fs::OpenOptions::new().write(true).open("/dev/full");
    let output = Command::new(env!("CARGO_BIN_EXE_write_card"))
        .stdin(Stdio::null())
        .stdout(full.unwrap())
        .output()
        .unwrap();
    let line = String::from_utf8(output.stderr).unwrap();
    assert_eq!(output.status.code(), Some(1), "{line}");
    assert!(line.starts_with("write_card: standard output: "), "{line}");
    assert_eq!(line.lines().count(), 1, "{line}");
}
