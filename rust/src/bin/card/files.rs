//! The files of pictures: each appears whole or not at all, and those of an earlier
//! run do not stay.

use crate::{failed, unwritten, Outcome};
use std::collections::HashSet;
use std::ffi::{OsStr, OsString};
use std::fs::{self, File};
use std::io::{self, Read, Write};
use std::os::unix::ffi::OsStrExt;
use std::path::{Path, PathBuf};

/// What is in every picture, among its first bytes.
pub const MARK: &str = "Ierbulosc card";
/// As many bytes are searched for it.
const SEARCHED: u64 = 1 << 10;

/// The word for standard output.
const STANDARD: &str = "-";

/// The pictures of a run, one a page.
pub struct Pictures {
    /// The beginning of their names, and their end.
    begin: OsString,
    end: &'static str,
    /// Whether the first one has no number.
    plain: bool,
    /// The names of those that are written.
    written: HashSet<OsString>,
}

impl Pictures {
    /// Pictures by this word: `-`, a folder with its slash, a name with its end, or
    /// the beginning of names.
    pub fn new(word: &OsStr, end: &'static str) -> Pictures {
        let bytes = word.as_bytes();
        let stem = bytes.strip_suffix(end.as_bytes());
        let stem = stem.filter(|stem| !stem.is_empty() && !stem.ends_with(b"/"));
        let mut begin = OsStr::from_bytes(stem.unwrap_or(bytes)).to_os_string();
        if word != STANDARD {
            begin.push(if bytes.ends_with(b"/") { "page-" } else { "-" });
        }
        Pictures {
            begin,
            end,
            plain: stem.is_some(),
            written: HashSet::new(),
        }
    }

    /// What the picture of the page of this number says of itself, so that an earlier
    /// run's is known: the number too, if it is in the name, since `x-2-1` may be by
    /// the word `x` or by `x-2`.
    pub fn mark(&self, number: &str) -> String {
        if self.begin == STANDARD || self.is_plain() {
            return MARK.into();
        }
        marked(number)
    }

    /// Whether the next picture has no number in its name.
    fn is_plain(&self) -> bool {
        self.plain && self.written.is_empty()
    }

    /// Writes the picture of the page of this number.
    pub fn write(&mut self, number: &str, picture: &[u8]) -> Outcome<()> {
        if self.begin == STANDARD {
            let mut out = io::stdout().lock();
            return out.write_all(picture).map_err(unwritten);
        }
        let path = if self.is_plain() {
            let stem = self.begin.as_bytes().strip_suffix(b"-").unwrap_or_default();
            joined(OsStr::from_bytes(stem), "", self.end)
        } else {
            joined(&self.begin, number, self.end)
        };
        let mut part = Part::new(&path)?;
        part.write(picture)?;
        part.finish()?;
        self.written
            .extend(path.file_name().map(OsStr::to_os_string));
        Ok(())
    }

    /// Ends the run: pictures of an earlier one by the same word are removed.
    pub fn finish(&self) -> Outcome<()> {
        let begin = Path::new(&self.begin);
        let (Some(name), Some(folder)) = (begin.file_name(), begin.parent()) else {
            return Ok(());
        };
        let folder = match folder.as_os_str().is_empty() {
            true => Path::new("."),
            false => folder,
        };
        if self.begin == STANDARD {
            return Ok(());
        }
        let other = |path: &PathBuf| !self.written.contains(path.file_name().unwrap_or_default());
        let entries = fs::read_dir(folder).map_err(|error| failed(folder.display(), error))?;
        let paths = entries.flatten().map(|entry| entry.path());
        let of_run = |path: &PathBuf| is_of_run(path, name, self.end);
        for path in paths.filter(other).filter(of_run) {
            fs::remove_file(&path).map_err(|error| failed(path.display(), error))?;
        }
        Ok(())
    }
}

/// The path of these parts.
fn joined(begin: &OsStr, number: &str, end: &str) -> PathBuf {
    let mut path = begin.to_os_string();
    path.push(number);
    path.push(end);
    path.into()
}

/// The mark of a picture with this number in its name.
fn marked(number: &str) -> String {
    format!("{MARK} ({number})")
}

/// Whether a file is a picture of this program, with a page's number between these
/// in its name.
fn is_of_run(path: &Path, begin: &OsStr, end: &str) -> bool {
    let name = path.file_name().unwrap_or_default().as_bytes();
    let number = name.strip_prefix(begin.as_bytes());
    let number = number.and_then(|rest| rest.strip_suffix(end.as_bytes()));
    let number = number.and_then(|number| std::str::from_utf8(number).ok());
    number.is_some_and(|number| begins_with(path, &marked(number)))
}

/// Whether these words are among a file's first bytes.
fn begins_with(path: &Path, words: &str) -> bool {
    let mut begin = Vec::new();
    let file = File::open(path);
    let read = file.and_then(|file| file.take(SEARCHED).read_to_end(&mut begin));
    let mut parts = begin.windows(words.len());
    read.is_ok() && parts.any(|part| part == words.as_bytes())
}

/// A file that is being written, under another name until it is whole.
pub struct Part {
    path: PathBuf,
    part: PathBuf,
    file: Option<File>,
}

impl Part {
    pub fn new(path: &Path) -> Outcome<Part> {
        let part = joined(path.as_os_str(), "", ".part");
        let file = File::create(&part).map_err(|error| failed(path.display(), error))?;
        Ok(Part {
            path: path.into(),
            part,
            file: Some(file),
        })
    }

    pub fn write(&mut self, bytes: &[u8]) -> Outcome<()> {
        match &mut self.file {
            Some(file) => file
                .write_all(bytes)
                .map_err(|error| failed(self.path.display(), error)),
            None => Ok(()),
        }
    }

    /// The file is whole, and gets its name.
    pub fn finish(mut self) -> Outcome<()> {
        self.file = None;
        fs::rename(&self.part, &self.path).map_err(|error| failed(self.path.display(), error))
    }
}

impl Drop for Part {
    /// What is not whole does not stay; once it has its name, there is no other.
    fn drop(&mut self) {
        let _ = fs::remove_file(&self.part);
    }
}
