//! Shows the pages of an ESC/P capture: as text, as pictures, or what stands
//! in the slots of a card; see `card --help`.

mod braille;
mod files;
mod follow;
#[cfg(test)]
mod generated;
mod grid;
mod input;
mod layout;
mod letters;
mod line;
mod listing;
mod options;
mod page;
mod passed;
mod pdf;
mod png;
mod progress;
mod reader;
mod runs;
mod slots;
mod svg;
mod terminal;
mod text;

use files::Pictures;
use ierbulosc::{Settings, State};
use input::Input;
use listing::Form;
use options::{choice, Choice, Kind, Options, Slots, HELP};
use page::Page;
use passed::Passed;
use pdf::Pdf;
use progress::Progress;
use reader::{Care, Reader};
use std::ffi::OsStr;
use std::fmt::Display;
use std::io::{self, ErrorKind, IsTerminal, StdoutLock, Write};
use std::process::ExitCode;
use text::Look;

/// The bytes read at a time.
const PIECE: usize = 1 << 16;

/// Why the program ends before its time.
pub enum Failure {
    /// Standard output is no longer read by anyone.
    Pipe,
    /// Reading or writing failed.
    Of(String),
    /// Something was passed over, as was told.
    Passed,
}

pub type Outcome<T> = Result<T, Failure>;

/// That reading or writing this failed.
fn failed(what: impl Display, error: io::Error) -> Failure {
    Failure::Of(format!("{what}: {error}"))
}

/// What a failure to write to standard output is.
fn unwritten(error: io::Error) -> Failure {
    match error.kind() {
        ErrorKind::BrokenPipe => Failure::Pipe,
        _ => failed("standard output", error),
    }
}

fn main() -> ExitCode {
    let done = match choice(std::env::args_os().skip(1)) {
        Ok(Choice::Help) => print(HELP),
        Ok(Choice::Version) => print(concat!("card ", env!("CARGO_PKG_VERSION"), "\n")),
        Ok(Choice::Show(options)) if options.follow => follow::run(options),
        Ok(Choice::Show(options)) => run(options),
        Err(problem) => {
            complain(&problem);
            return ExitCode::from(2);
        }
    };
    match done {
        Ok(()) | Err(Failure::Pipe) => ExitCode::SUCCESS,
        Err(Failure::Passed) => ExitCode::FAILURE,
        Err(Failure::Of(problem)) => {
            complain(&problem);
            ExitCode::FAILURE
        }
    }
}

/// A line on standard error; where that is closed, there is no one to tell.
fn complain(problem: &str) {
    let _ = writeln!(io::stderr(), "card: {problem}");
}

fn print(text: &str) -> Outcome<()> {
    let mut out = io::stdout().lock();
    out.write_all(text.as_bytes())
        .and_then(|()| out.flush())
        .map_err(unwritten)
}

/// How text is drawn. An empty NO_COLOR counts as none.
fn look(options: &Options) -> Look {
    let plain = std::env::var_os("NO_COLOR").is_some_and(|word| !word.is_empty());
    Look {
        cpi: options.cpi,
        styled: options
            .color
            .unwrap_or_else(|| !plain && terminal::is_able(&io::stdout())),
        columns: terminal::size().map(|(_, columns)| columns),
    }
}

/// The pictures that are being written.
enum Drawing {
    Svg(Pictures),
    Png(Pictures),
    Pdf(Pdf),
}

impl Drawing {
    /// Pictures of this kind and name; a PDF has a title.
    fn new(kind: Kind, name: &OsStr, title: &str) -> Outcome<Drawing> {
        Ok(match kind {
            Kind::Svg => Drawing::Svg(Pictures::new(name, ".svg")),
            Kind::Png => Drawing::Png(Pictures::new(name, ".png")),
            Kind::Pdf => Drawing::Pdf(Pdf::new(name, title)?),
        })
    }

    /// Draws a page, of which these are the number in a file's name and the title.
    fn page(&mut self, number: &str, title: &str, page: &Page, state: &State) -> Outcome<()> {
        let title = format!("{title}, page {}", page.number);
        match self {
            Drawing::Svg(files) => {
                let picture = svg::picture(&files.mark(number), &title, page, state);
                files.write(number, picture.as_bytes())
            }
            Drawing::Png(files) => {
                let picture = png::picture(&files.mark(number), &title, page, state);
                files.write(number, &picture)
            }
            Drawing::Pdf(pdf) => pdf.page(page, state),
        }
    }

    /// Ends the pictures, which were drawn with these settings.
    fn finish(self, settings: &Settings) -> Outcome<()> {
        match self {
            Drawing::Svg(files) | Drawing::Png(files) => files.finish(),
            Drawing::Pdf(pdf) => pdf.finish(settings),
        }
    }
}

/// What the pages are written to.
struct Shown {
    options: Options,
    look: Look,
    out: StdoutLock<'static>,
    /// Text that is not yet written.
    text: String,
    progress: Progress,
    pages: u64,
    /// The name of the capture, where there are several, and which it is.
    name: Option<String>,
    capture: usize,
    /// Its title in pictures.
    title: String,
    drawing: Option<Drawing>,
    /// Whether a word of the text is not at its place.
    crowded: bool,
    /// Whether the slots named are not the card's.
    out_of_step: bool,
    /// Whether something was passed over.
    passed: bool,
}

impl Shown {
    fn new(options: Options, total: Option<u64>) -> Shown {
        Shown {
            look: look(&options),
            options,
            out: io::stdout().lock(),
            text: String::new(),
            progress: Progress::new(total),
            pages: 0,
            name: None,
            capture: 0,
            title: String::new(),
            drawing: None,
            crowded: false,
            out_of_step: false,
            passed: false,
        }
    }

    /// Begins a capture, under its name where there are several.
    fn begin(&mut self, title: &str, several: bool) -> Outcome<()> {
        let silent = self.options.picture.is_some() || self.options.listing == Some(Form::Json);
        if several && !silent {
            self.text += &format!("==== {} ====\n", input::shown(title));
        }
        self.name = several.then(|| title.into());
        self.capture += 1;
        // A picture's title has no folder.
        self.title = title.rsplit('/').next().unwrap_or(title).into();
        if let (None, Some((kind, name))) = (&self.drawing, &self.options.picture) {
            self.drawing = Some(Drawing::new(*kind, name, &self.title)?);
        }
        Ok(())
    }

    /// Shows a page, as a picture or as text, or only counts it.
    fn page(&mut self, page: &Page, state: &State) -> Outcome<()> {
        self.pages += 1;
        if let Some(drawing) = &mut self.drawing {
            let number = match self.name {
                Some(_) => format!("{}-{}", self.capture, page.number),
                None => page.number.to_string(),
            };
            return drawing.page(&number, &self.title, page, state);
        }
        if self.options.slots.is_none() {
            if page.number > 1 {
                self.text += &format!("---- page {} ----\n", page.number);
            }
            self.crowded |= !text::draw(page, state, self.look, &mut self.text);
        }
        self.write_much()
    }

    /// Tells what stands in the slots.
    fn slots(&mut self, slots: &Slots, reader: &mut Reader) {
        reader.settle();
        let answers = slots::answers(reader.page(), reader.state(), slots);
        self.out_of_step |= !answers.in_step;
        match self.options.listing {
            Some(_) => listing::slots(&answers, self.name.as_deref(), &mut self.text),
            None => slots::draw(&answers, &mut self.text),
        }
    }

    /// Ends a capture: what was passed over is told.
    fn end(&mut self, passed: &Passed) {
        if let Some(words) = passed.words() {
            self.passed = true;
            self.progress.hide();
            match &self.name {
                Some(name) => complain(&format!("{}: {words}", input::shown(name))),
                None => complain(&words),
            }
        }
    }

    /// Writes what is not yet written, if it is much.
    fn write_much(&mut self) -> Outcome<()> {
        if self.text.len() > PIECE {
            return self.write();
        }
        Ok(())
    }

    /// Writes what is not yet written.
    fn write(&mut self) -> Outcome<()> {
        if self.text.is_empty() {
            return Ok(());
        }
        if self.out.is_terminal() {
            self.progress.hide();
        }
        let written = self.out.write_all(self.text.as_bytes());
        written.and_then(|()| self.out.flush()).map_err(unwritten)?;
        self.text.clear();
        Ok(())
    }

    /// What is to be said at the end of all.
    fn close(&mut self) -> Outcome<()> {
        self.progress.hide();
        if self.crowded {
            complain(text::CROWDED);
        }
        if self.out_of_step {
            complain(slots::OUT_OF_STEP);
        }
        if self.passed && self.options.strict {
            return Err(Failure::Passed);
        }
        Ok(())
    }
}

/// What the reader must know of a page.
fn care(options: &Options) -> Care {
    if options.picture.is_some() {
        Care::Places
    } else if options.slots.is_some() {
        Care::Layout
    } else {
        Care::Nothing
    }
}

/// The captures that are asked for, up to the first that is not there, and whether all
/// are.
fn inputs(options: &Options) -> (Vec<Input>, Outcome<()>) {
    let mut inputs = Vec::new();
    for capture in options.captures() {
        match Input::new(capture) {
            Ok(input) => inputs.push(input),
            Err(failure) => return (inputs, Err(failure)),
        }
    }
    (inputs, Ok(()))
}

/// Reads all, and shows what is asked for.
fn run(options: Options) -> Outcome<()> {
    let (inputs, all) = inputs(&options);
    let several = options.captures().len() > 1;
    let totals = inputs.iter().map(|input| input.total);
    let mut shown = Shown::new(options, totals.sum());
    for mut input in inputs {
        shown.begin(&input.name, several)?;
        let done = read(&mut input, &mut shown);
        // Pages that were read before a failure are shown all the same.
        let written = shown.write();
        shown.progress.hide();
        done.and(written)?;
    }
    all?;
    if let Some(drawing) = shown.drawing.take() {
        drawing.finish(&shown.options.settings)?;
    }
    shown.close()
}

/// Reads all of a capture, or as much as can be read, and shows it.
fn read(input: &mut Input, shown: &mut Shown) -> Outcome<()> {
    let mut reader = Reader::new(&shown.options.settings, care(&shown.options));
    let listed = shown
        .options
        .listing
        .filter(|_| shown.options.slots.is_none());
    let mut room = vec![0; PIECE];
    loop {
        let count = match input.read(&mut room) {
            Ok(0) => return end(&mut reader, shown),
            Ok(count) => count,
            Err(failure) => return end(&mut reader, shown).and(Err(failure)),
        };
        match listed {
            Some(form) => list(&mut reader, &room[..count], form, shown)?,
            None => reader.read(&room[..count], &mut |page, state| shown.page(page, state))?,
        }
        shown.write()?;
        shown.progress.read(count, shown.pages);
    }
}

/// Reads these bytes, and lists their records.
fn list(reader: &mut Reader, bytes: &[u8], form: Form, shown: &mut Shown) -> Outcome<()> {
    let dots = reader.state().dots_across;
    reader.list(bytes, &mut |records| {
        listing::list(records, form, shown.name.as_deref(), dots, &mut shown.text);
        shown.write_much()
    })
}

/// Shows the present page and the slots.
fn end(reader: &mut Reader, shown: &mut Shown) -> Outcome<()> {
    reader.end(&mut |page, state| shown.page(page, state))?;
    if let Some(slots) = shown.options.slots.clone() {
        shown.slots(&slots, reader);
    }
    shown.write()?;
    shown.end(reader.passed());
    Ok(())
}
