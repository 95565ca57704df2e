//! The bytes of the files of the command line, or of standard input.

use crate::{failed, Outcome};
use std::ffi::{OsStr, OsString};
use std::fs::{self, File};
use std::io::{self, ErrorKind, Read, Seek};
use std::os::fd::AsFd;

/// The files of a capture, one after the other.
pub struct Input {
    /// What it is called.
    pub name: String,
    /// Those that are not open yet, the last one first.
    files: Vec<OsString>,
    open: Option<(String, File)>,
    /// All their bytes, if they are known.
    pub total: Option<u64>,
    /// Whether the last one is a file, which may grow.
    pub may_grow: bool,
}

/// The word for standard input.
const STANDARD: &str = "-";

impl Input {
    /// These files; without any standard input. Each must be there.
    pub fn new(mut files: Vec<OsString>) -> Outcome<Input> {
        if files.is_empty() {
            files.push(STANDARD.into());
        }
        let (mut total, mut may_grow) = (Some(0), false);
        for file in &files {
            let length = length(file).map_err(|error| failed(name(file), error))?;
            may_grow = length.is_some();
            total = total.zip(length).map(|(total, length)| total + length);
        }
        files.reverse();
        Ok(Input {
            name: title(&files[0]),
            files,
            open: None,
            total,
            may_grow,
        })
    }

    /// Reads bytes, as many as come; none at the end of all files. The last one
    /// stays open, so that more may come.
    pub fn read(&mut self, room: &mut [u8]) -> Outcome<usize> {
        loop {
            let Some((name, file)) = &mut self.open else {
                let Some(next) = self.files.pop() else {
                    return Ok(0);
                };
                self.open = Some(open(&next)?);
                continue;
            };
            match file.read(room) {
                Ok(0) if self.files.is_empty() => return Ok(0),
                Ok(0) => self.open = None,
                Ok(count) => return Ok(count),
                Err(error) if error.kind() == ErrorKind::Interrupted => {}
                Err(error) => return Err(failed(name.as_str(), error)),
            }
        }
    }

    /// Where the open file has become shorter than what was read of it, goes back to
    /// its beginning; whether it has.
    pub fn is_truncated(&mut self) -> Outcome<bool> {
        let Some((name, file)) = &mut self.open else {
            return Ok(false);
        };
        back_if_shorter(file).map_err(|error| failed(name.as_str(), error))
    }
}

/// Goes back to a file's beginning if it is shorter than what was read.
fn back_if_shorter(file: &mut File) -> io::Result<bool> {
    let shorter = file.metadata()?.len() < file.stream_position()?;
    if shorter {
        file.rewind()?;
    }
    Ok(shorter)
}

/// The name of a file.
fn title(file: &OsStr) -> String {
    if file == STANDARD {
        return "standard input".into();
    }
    file.to_string_lossy().into_owned()
}

/// What a file is called in a line of text.
pub fn shown(title: &str) -> String {
    match title.escape_debug().to_string() {
        empty if empty.is_empty() => "''".into(),
        shown => shown,
    }
}

/// What a file is called where something is wrong with it.
fn name(file: &OsStr) -> String {
    shown(&title(file))
}

/// The length of a file, if it is one that has a length.
fn length(file: &OsStr) -> io::Result<Option<u64>> {
    let about = match file == STANDARD {
        true => standard()?.metadata()?,
        false => fs::metadata(file)?,
    };
    Ok(about.is_file().then_some(about.len()))
}

/// Standard input as a file.
fn standard() -> io::Result<File> {
    Ok(io::stdin().as_fd().try_clone_to_owned()?.into())
}

fn open(file: &OsStr) -> Outcome<(String, File)> {
    let name = name(file);
    let opened = match file == STANDARD {
        true => standard(),
        false => File::open(file),
    };
    match opened {
        Ok(file) => Ok((name, file)),
        Err(error) => Err(failed(name, error)),
    }
}
