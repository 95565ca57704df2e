//! Records in words, or as JSON, a line each.

use crate::letters::character;
use crate::slots::Answers;
use ierbulosc::{records, Record};
use std::fmt::Write;

/// How what is not drawn is written.
#[derive(Clone, Copy, PartialEq, Eq, Debug)]
pub enum Form {
    Words,
    Json,
}

/// Appends the records of these bytes, with the file's name where there are
/// several; letters are of so many dots to the inch.
pub fn list(bytes: &[u8], form: Form, file: Option<&str>, dots: u32, text: &mut String) {
    for record in records(bytes) {
        // Writing to a string does not fail.
        let _ = match form {
            Form::Words => words(record, text),
            Form::Json => {
                open(file, text);
                fields(record, dots, text)
            }
        };
    }
}

/// A record in words, as the worked cases have it.
fn words(record: Record, text: &mut String) -> std::fmt::Result {
    match record {
        Record::Tx {
            column,
            row,
            byte,
            font,
            style,
            country,
            advance,
            rest,
        } => {
            write!(
                text,
                "TX column {column} row {row} byte {byte:02x} font {font:02x}"
            )?;
            write!(
                text,
                " style {style:04x} country {country:02x} advance {advance}"
            )?;
            ended(rest, text)
        }
        Record::Im {
            column,
            row,
            byte,
            part,
            advance,
            rest,
        } => {
            write!(text, "IM column {column} row {row} byte {byte:02x}")?;
            if part > 0 {
                write!(text, " font {part:02x}")?;
            }
            write!(text, " advance {advance}")?;
            ended(rest, text)
        }
        Record::Ln { row, pages } => writeln!(text, "LN row {row} byte {pages}"),
        Record::Cl => writeln!(text, "CL"),
        Record::No { byte, reason } => writeln!(text, "NO byte {byte:02x} reason {reason}"),
    }
}

/// The rest, where there is one, and the line's end.
fn ended(rest: i16, text: &mut String) -> std::fmt::Result {
    if rest != 0 {
        write!(text, " rest {rest}")?;
    }
    writeln!(text)
}

/// Begins an object, with the file's name if it is told.
fn open(file: Option<&str>, text: &mut String) {
    text.push('{');
    if let Some(file) = file {
        text.push_str("\"file\":");
        quoted(file, text);
        text.push(',');
    }
}

/// The fields of a record as those of an object, and its end.
fn fields(record: Record, dots: u32, text: &mut String) -> std::fmt::Result {
    match record {
        Record::Tx {
            column, row, byte, ..
        } => {
            write!(text, "\"record\":\"TX\",\"column\":{column},\"row\":{row}")?;
            write!(text, ",\"byte\":{byte}")?;
            letter(record, dots, text)?;
        }
        Record::Im {
            column,
            row,
            byte,
            part,
            advance,
            rest,
        } => {
            write!(text, "\"record\":\"IM\",\"column\":{column},\"row\":{row}")?;
            write!(
                text,
                ",\"byte\":{byte},\"part\":{part},\"advance\":{advance},\"rest\":{rest}"
            )?;
        }
        Record::Ln { row, pages } => {
            write!(text, "\"record\":\"LN\",\"row\":{row},\"pages\":{pages}")?;
        }
        Record::Cl => text.push_str("\"record\":\"CL\""),
        Record::No { byte, reason } => {
            write!(
                text,
                "\"record\":\"NO\",\"byte\":{byte},\"reason\":{reason}"
            )?;
        }
    }
    writeln!(text, "}}")
}

/// The other fields of a letter, and its character.
fn letter(record: Record, dots: u32, text: &mut String) -> std::fmt::Result {
    if let Record::Tx {
        byte,
        font,
        style,
        country,
        advance,
        rest,
        ..
    } = record
    {
        write!(
            text,
            ",\"font\":{font},\"style\":{style},\"country\":{country}"
        )?;
        write!(
            text,
            ",\"advance\":{advance},\"rest\":{rest},\"character\":"
        )?;
        let sign = character(byte, style, country, dots).0;
        quoted(sign.encode_utf8(&mut [0; 4]), text);
    }
    Ok(())
}

/// Appends an object for each slot.
pub fn slots(answers: &Answers, file: Option<&str>, text: &mut String) {
    for (number, answer) in answers.slots.iter().enumerate() {
        open(file, text);
        let driver = number + 1;
        let _ = write!(
            text,
            "\"slot\":{driver},\"electricians\":{number},\"text\":"
        );
        match &answer.text {
            Some(words) => quoted(words, text),
            None => text.push_str("null"),
        }
        text.push_str(",\"notes\":[");
        for (place, note) in answer.notes.iter().enumerate() {
            if place > 0 {
                text.push(',');
            }
            quoted(note, text);
        }
        text.push_str("]}\n");
    }
}

/// Appends a string of JSON.
fn quoted(words: &str, text: &mut String) {
    text.push('"');
    for sign in words.chars() {
        match sign {
            '"' | '\\' => text.extend(['\\', sign]),
            '\0'..='\x1F' => {
                let _ = write!(text, "\\u{:04x}", sign as u32);
            }
            _ => text.push(sign),
        }
    }
    text.push('"');
}
