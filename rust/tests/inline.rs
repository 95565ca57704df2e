//! The functions that the C header has whole, compiled and run, give what those
//! of the cover give. It wants gcc; without it, it says so and tries nothing.

use ierbulosc::{dot, dot_below, place, Letter, Record, RECORD_SIZE, VERSION};
use std::path::Path;
use std::process::Command;

/// What the program in C prints.
fn printed() -> Option<String> {
    let package = Path::new(env!("CARGO_MANIFEST_DIR"));
    let program = Path::new(env!("CARGO_TARGET_TMPDIR")).join("inline");
    let compiled = Command::new("gcc")
        .args("-std=c99 -Wall -Wextra -Wpedantic -Wconversion -Werror -I".split(' '))
        .arg(package.join("../include"))
        .arg("-o")
        .arg(&program)
        .arg(package.join("tests/c/inline.c"))
        .status();
    let Ok(status) = compiled else {
        println!("there is no gcc: the functions of the header are not tried");
        return None;
    };
    assert!(status.success(), "the header does not compile");
    let output = Command::new(program).output().unwrap();
    assert!(output.status.success());
    Some(String::from_utf8(output.stdout).unwrap())
}

/// The fields of a record as C prints them.
fn fields(mark: &[u8; 2]) -> String {
    let mut bytes: [u8; RECORD_SIZE] = std::array::from_fn(|at| 0x21 + 7 * at as u8);
    bytes[..2].copy_from_slice(mark);
    let two = |at: usize| u16::from_le_bytes([bytes[at], bytes[at + 1]]);
    let record = Record::from_bytes(&bytes).unwrap();
    // What the mark does not name keeps what stands there.
    let mut numbers: [i32; 11] = [
        two(0).into(),
        two(2).into(),
        two(4).into(),
        bytes[6].into(),
        bytes[7].into(),
        two(8).into(),
        bytes[10].into(),
        two(12).into(),
        (two(14) as i16).into(),
        0,
        0,
    ];
    match record {
        Record::Tx { rest, .. } | Record::Im { rest, .. } => numbers[8] = rest.into(),
        Record::Ln { row, pages } => {
            numbers[2] = row.into();
            (numbers[3], numbers[9]) = (0, pages.into());
        }
        Record::No { byte, reason } => {
            numbers[3] = byte.into();
            (numbers[5], numbers[10]) = (0, reason.into());
        }
        Record::Cl => {}
    }
    numbers.map(|number| number.to_string()).join(" ")
}

#[test]
fn functions_of_the_header() {
    let Some(printed) = printed() else {
        return;
    };
    let mut lines = printed.lines();
    let version = lines.next().unwrap().strip_prefix("version ").unwrap();
    assert_eq!(version.split(' ').next(), Some(VERSION));
    for part in 0..=3 {
        for at in 0..8 {
            let line = format!("below {}", dot_below(part, at));
            assert_eq!(lines.next(), Some(line.as_str()), "part {part}, dot {at}");
        }
    }
    for dots in [300, 203, 200] {
        for units in (0..100_000).step_by(7) {
            let line = format!("dot {}", dot(units, dots));
            assert_eq!(lines.next(), Some(line.as_str()), "{units} at {dots}");
        }
    }
    let line = format!("dot {}", dot(14_000_000, 300));
    assert_eq!(lines.next(), Some(line.as_str()));
    for dots in [300, 203] {
        for column in (1..=u16::MAX).step_by(97) {
            for rest in (-1_800..1_800).step_by(37) {
                let line = format!("place {}", place(column, rest, dots));
                assert_eq!(
                    lines.next(),
                    Some(line.as_str()),
                    "{column} {rest} at {dots}"
                );
            }
        }
    }
    for mark in [b"TX", b"IM", b"LN", b"CL", b"NO"] {
        let line = format!("record {}", fields(mark));
        assert_eq!(lines.next(), Some(line.as_str()));
    }
    for byte in 0..=u8::MAX {
        let at = u16::from(byte);
        let letter = Letter::new(byte, 257 * at, u16::MAX - 251 * at);
        let bytes = letter.to_bytes().map(|byte| byte.to_string());
        let line = format!("letter {}", bytes.join(" "));
        assert_eq!(lines.next(), Some(line.as_str()));
    }
    assert_eq!(lines.next(), None);
}
