//! The programs' usage.

use std::process::{Command, Output};

fn run(program: &str, arguments: &[&str]) -> Output {
    Command::new(program).args(arguments).output().unwrap()
}

fn compare(arguments: &[&str]) -> Output {
    run(env!("CARGO_BIN_EXE_compare"), arguments)
}

fn speed(arguments: &[&str]) -> Output {
    run(env!("CARGO_BIN_EXE_speed"), arguments)
}

fn calls(arguments: &[&str]) -> Output {
    run(env!("CARGO_BIN_EXE_calls"), arguments)
}

/// One line on standard error, nothing on standard output, exit status 2.
fn is_refused(output: &Output) {
    let line = String::from_utf8_lossy(&output.stderr);
    assert_eq!(output.status.code(), Some(2), "{line}");
    assert!(output.stdout.is_empty(), "{line}");
    assert_eq!(line.lines().count(), 1, "{line}");
    assert!(line.ends_with('\n'));
}

#[test]
fn bad_usage() {
    for arguments in [
        &["--list", "3"][..],
        &["--lists"],
        &["--lists", "many"],
        &["--states", "-1"],
        &["--slots"],
        &["--slots", "5.5"],
        &["--slot", "5"],
        &["--cards"],
        &["--cards", "few"],
        &["--seed", "1", "2"],
        &["--replay"],
        &["--replay", "/no/such/file"],
        &["--help", "me"],
        &[""],
    ] {
        is_refused(&compare(arguments));
    }
    for arguments in [
        &["--twice"][..],
        &["--runs", "both"],
        &["--watch"],
        &["--write", "one", "two"],
        &["--slots", "5"],
    ] {
        is_refused(&speed(arguments));
    }
    for arguments in [
        &[][..],
        &["--lists", "3", "--seed", "1", "one"],
        &["--lists", "few", "--seed", "1", "one", "two"],
        &["--lists", "3", "--seed", "-1", "one", "two"],
        &["--input", "noise", "one"],
        &["--phrases"],
        &["--help", "me"],
    ] {
        is_refused(&calls(arguments));
    }
}

/// Calls as boards/calls.c is given them, a line of what came back for each.
#[test]
fn calls_with_what_came_back() {
    let files = ["/calls", "/came"].map(|name| env!("CARGO_TARGET_TMPDIR").to_string() + name);
    let output = calls(&["--lists", "5", "--seed", "2", &files[0], &files[1]]);
    assert_eq!(output.status.code(), Some(0));
    assert!(output.stdout.is_empty() && output.stderr.is_empty());
    let [calls, came] = files.map(|file| std::fs::read_to_string(file).unwrap());
    assert_eq!(calls.lines().count(), came.lines().count());
    let count = |word: &str| calls.lines().filter(|line| line.starts_with(word)).count();
    let lists = count("list");
    assert_eq!(lists, count("state ") + 5);
    assert!(count("state ") > 100 && count("start ") >= 5 && count("read ") > 2 * 100);
    assert_eq!((count("slot "), count("write ")), (5, 5));
    assert!(came.lines().any(|line| line.starts_with("0 ")));
    assert!(came.lines().any(|line| line == "4 0 0 -"));
}

#[test]
fn a_short_run() {
    let amount = ["--lists", "20", "--slots", "40", "--states", "30"];
    let output = compare(&[&amount[..], &["--cards", "50", "--seed", "9"]].concat());
    let lines = String::from_utf8_lossy(&output.stdout);
    assert_eq!(output.status.code(), Some(0));
    let said: Vec<&str> = lines.lines().collect();
    assert_eq!(said.len(), 3, "{lines}");
    assert!(said[0].contains("in 20 lists of calls and 30 states"));
    assert!(said[1].contains("in 40 slots"), "{lines}");
    assert!(said[2].contains("in 50 cards"), "{lines}");
}

/// Records as `escp` writes them, asked again; a line that is none is refused.
#[test]
fn a_question_replayed() {
    let file = concat!(env!("CARGO_TARGET_TMPDIR"), "/question");
    let records = "5458b004000034000000000068010000\n4c4e0000320000000000000000000000\n";
    std::fs::write(file, format!("slot 1100 1300\n{records}")).unwrap();
    let output = compare(&["--replay", file]);
    let lines = String::from_utf8_lossy(&output.stdout);
    assert_eq!(output.status.code(), Some(0), "{lines}");
    let found = "number 0, part of 16 bytes from byte 0";
    let expected = format!("plain:  {found}\nproved: {found}\nno difference\n");
    assert_eq!(lines, expected);
    std::fs::write(file, format!("slot 1100\n{records}")).unwrap();
    is_refused(&compare(&["--replay", file]));
}

/// Without valgrind, or without a limit, the watch over speed fails, and says
/// what is missing.
#[test]
fn a_watch_that_cannot_be_kept() {
    let limits = concat!(env!("CARGO_MANIFEST_DIR"), "/limits.txt");
    for (file, missing) in [(limits, "valgrind"), ("/no/such/file", "/no/such/file")] {
        let mut watch = Command::new(env!("CARGO_BIN_EXE_speed"));
        let output = watch.args(["--watch", file]).env("PATH", "").output();
        let output = output.unwrap();
        let line = String::from_utf8_lossy(&output.stderr);
        assert_eq!(output.status.code(), Some(1), "{line}");
        assert!(output.stdout.is_empty());
        assert!(line.contains(missing), "{line}");
    }
}

#[test]
fn the_stack_is_measured() {
    let output = speed(&["--stack"]);
    let table = String::from_utf8_lossy(&output.stdout);
    assert_eq!(output.status.code(), Some(0), "{table}");
    assert_eq!(table.lines().count(), 6, "{table}");
}

/// Slots and cards are measured without valgrind too, but for their
/// instructions.
#[test]
fn slots_and_cards_are_measured() {
    for (table, calls, rows) in [
        ("--slots", "--slot-calls", 7),
        ("--cards", "--card-calls", 3),
    ] {
        let mut measured = Command::new(env!("CARGO_BIN_EXE_speed"));
        let output = measured.arg(table).env("PATH", "").output().unwrap();
        let table = String::from_utf8_lossy(&output.stdout);
        assert_eq!(output.status.code(), Some(0), "{table}");
        let lines: Vec<&str> = table.lines().collect();
        assert_eq!(lines.len(), 2 + rows, "{table}");
        assert!(lines[2..].iter().all(|line| line.contains("not counted")));
        let output = speed(&[calls]);
        assert_eq!(output.status.code(), Some(0));
        assert!(output.stdout.is_empty() && output.stderr.is_empty());
    }
}

#[test]
fn help() {
    let help = &["--help"];
    for output in [compare(help), speed(help), calls(help)] {
        assert_eq!(output.status.code(), Some(0));
        assert!(output.stdout.len() > 100);
        assert!(output.stderr.is_empty());
    }
}

/// A card written again and read back; a line that is none is refused.
#[test]
fn a_card_replayed() {
    let file = concat!(env!("CARGO_TARGET_TMPDIR"), "/card");
    std::fs::write(file, "card 35 1\n4114000000\n").unwrap();
    let output = compare(&["--replay", file]);
    let lines = String::from_utf8_lossy(&output.stdout);
    assert_eq!(output.status.code(), Some(0), "{lines}");
    let came = "number 0, 11 bytes: 1b401b2400001b5c010041";
    let expected = format!("plain:  {came}\nproved: {came}\nno difference\n");
    assert_eq!(lines, expected);
    std::fs::write(file, "card 35\n4114000000\n").unwrap();
    is_refused(&compare(&["--replay", file]));
}
