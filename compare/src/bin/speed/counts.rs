//! Instructions counted by callgrind: the program runs itself under it, and
//! callgrind dumps the count after each run of a function. Those of the
//! readers, for a byte.

use crate::readers::{subjects, Reader, Subject, READERS};
use crate::{tables, Problem};
use std::hint::black_box;
use std::path::{Path, PathBuf};
use std::process::{Command, Stdio};

/// The bytes of an input.
const LENGTH: usize = 100_000;

/// Prints the table.
pub fn print() -> Result<(), Problem> {
    let counts = count(&READERS)?;
    tables::head("instructions a byte", "Instructions");
    for (subject, counts) in subjects().iter().zip(counts.chunks_exact(READERS.len())) {
        let counts = [counts[0], counts[1], counts[2]];
        tables::line(subject, counts.map(|count| format!("{count:.1}")), counts);
    }
    Ok(())
}

/// One run of each reader on each subject, for callgrind to count.
pub fn run(readers: &[Reader]) -> Result<(), Problem> {
    for subject in subjects() {
        let input = subject.bytes(LENGTH);
        let mut out = subject.room();
        for reader in readers {
            measured_run(&subject, *reader, black_box(&input), &mut out);
        }
    }
    Ok(())
}

/// What callgrind counts; it knows this function by its name.
#[no_mangle]
#[inline(never)]
fn measured_run(subject: &Subject, reader: Reader, input: &[u8], out: &mut [u8]) {
    subject.read(reader, input, out, |records| {
        black_box(records);
    });
}

/// The instructions for a byte of each reader on each subject, in the order of
/// [`run`].
pub fn count(readers: &[Reader]) -> Result<Vec<f64>, Problem> {
    let names = readers.iter().map(|reader| reader.name());
    let arguments: Vec<&str> = ["--runs"].into_iter().chain(names).collect();
    let subjects = subjects();
    let runs = subjects.len() * readers.len();
    let mut counts = counted("measured_run", &arguments, runs)?;
    for (subject, counts) in subjects.iter().zip(counts.chunks_mut(readers.len())) {
        let length = subject.bytes(LENGTH).len() as f64;
        counts.iter_mut().for_each(|count| *count /= length);
    }
    Ok(counts)
}

/// The instructions of each of so many runs of a function, when this program
/// is called with these arguments.
pub fn counted(function: &str, arguments: &[&str], runs: usize) -> Result<Vec<f64>, Problem> {
    let folder = Folder::new()?;
    let dump = folder.0.join("count");
    let program = std::env::current_exe().map_err(|error| error.to_string())?;
    let mut valgrind = Command::new("valgrind");
    valgrind
        .args(["--tool=callgrind", "--collect-atstart=no"])
        .arg(format!("--toggle-collect={function}"))
        .arg(format!("--dump-after={function}"))
        .arg(format!("--callgrind-out-file={}", dump.display()))
        .arg(program)
        .args(arguments)
        .stdout(Stdio::null())
        .stderr(Stdio::piped());
    let output = valgrind
        .output()
        .map_err(|error| format!("valgrind does not run ({error}); it must be installed"))?;
    if !output.status.success() {
        let said = String::from_utf8_lossy(&output.stderr);
        return Err(format!("valgrind fails: {said}"));
    }
    let dumps = (1..=runs).map(|number| dump.with_extension(number.to_string()));
    dumps.map(|dump| total(&dump)).collect()
}

/// The instructions that a dump of callgrind tells.
fn total(dump: &Path) -> Result<f64, Problem> {
    let text = std::fs::read_to_string(dump)
        .map_err(|error| format!("callgrind left no count: {}: {error}", dump.display()))?;
    let mut lines = text.lines();
    let total = lines.find_map(|line| line.strip_prefix("totals: ")?.trim().parse().ok());
    total
        .filter(|total| *total > 0.0)
        .ok_or_else(|| "callgrind counted nothing".to_string())
}

/// A temporary folder, removed at its end.
struct Folder(PathBuf);

impl Folder {
    fn new() -> Result<Folder, Problem> {
        let name = format!("escp-speed-{}", std::process::id());
        let path = std::env::temp_dir().join(name);
        std::fs::create_dir(&path).map_err(|error| format!("{}: {error}", path.display()))?;
        Ok(Folder(path))
    }
}

impl Drop for Folder {
    fn drop(&mut self) {
        let _ = std::fs::remove_dir_all(&self.0);
    }
}
