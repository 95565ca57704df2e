//! The words of the command line.

use crate::listing::Form;
use ierbulosc::{Answer, Settings, State};
use std::ffi::{OsStr, OsString};
use std::os::unix::ffi::OsStrExt;

/// What `--help` prints.
pub const HELP: &str = "\
card [OPTION..] [FILE..]
Reads ESC/P from files, each a capture of its own, or from standard input, and shows
each page: letters at their places, images as dots.
  --dots N        dots to the inch: 203 or 300 (300 if not given)
  --width N       width of the paper in 1/3600 inch: 7200 to 28800 (28800 if not given)
  --auto-feed     a line feed after each carriage return
  --cpi N         cells of the text to the inch: 1 to 100 (if not given, 10, 12, 15, 17
                  or 20, as the letters of a page need)
  --svg PREFIX    in place of text, a picture of each page: PREFIX-1.svg and so on; or
                  NAME.svg, DIR/ (DIR/page-1.svg and so on), - (standard output);
                  of several files PREFIX-2-1.svg is the second one's first page
  --png PREFIX    the same as dots of the printer, with letters as boxes
  --pdf FILE      in place of text, all pages in one PDF; - is standard output
  --slots LIST    in place of text, at the end, what stands in each slot now; LIST is
                  where slots begin, from the left of the paper: columns, 10 to the
                  inch, 10,20,30, or of another pitch, 10,20,30@12 (10, 12, 15, 17
                  or 20); or places in inches, 0.833in,1.5in, or 1/3600 inch, 3000u
  --slot-stops    the same, where slots begin at the tab stops in force
  --records       in place of text, the records in words, a line each
  --json          records, or with --slots or --slot-stops the slots, as JSON, an object
                  a line
  --follow        redraws the present page, and the slots, as bytes come; of a file that
                  grows, until Ctrl-C
  --join          reads all files as one stream
  --strict        status 1 if anything was passed over
  --color WHEN    styles: always, auto (on a terminal, unless NO_COLOR is set) or never
  -h, --help      this text
  -V, --version   the version
A slot goes up to the next one, the last to the edge of the paper. What stands there
is what the newest line there has; a page that was turned is gone. Text that begins
before the slot or runs past it is whole, and marked; so is all that may be another
slot's, such as text that does not begin at the slot's first column.
A serial line is set raw before it is read: stty -F DEVICE 9600 raw -echo
A FILE of - is standard input; after -- every word is a FILE.
What was passed over is told in a line on standard error, with --follow also below the
page, with the place of the first byte, counted from 0.
Exit status: 0; 1 where reading or writing failed, or by --strict; 2 for bad usage.
";

/// The most cells of the text to an inch.
const MOST_CPI: u32 = 100;
/// The widest paper, in units.
const WIDEST: u32 = 28_800;
/// The pitches that columns of slots may be named in, with their columns' width
/// in units.
const PITCHES: [(&str, u32); 5] = [
    ("10", 360),
    ("12", 300),
    ("15", 240),
    ("17", 216),
    ("20", 180),
];

/// The options without a value.
const FLAGS: [&str; 9] = [
    "--auto-feed",
    "--slot-stops",
    "--records",
    "--json",
    "--follow",
    "--join",
    "--strict",
    "--help",
    "--version",
];

// What the other ones take.
const DOTS: &str = "--dots takes 203 or 300";
const WIDTH: &str = "--width takes 7200 to 28800";
const CPI: &str = "--cpi takes 1 to 100";
const COLOR: &str = "--color takes always, auto or never";
const SVG: &str = "--svg takes the beginning of the pictures' names";
const PNG: &str = "--png takes the beginning of the pictures' names";
const PDF: &str = "--pdf takes the name of a file";
const SLOTS: &str = "--slots takes places on 8 inches of paper, ascending: columns as 10,20,30 \
                     or, of another pitch, 10,20,30@12 (10, 12, 15, 17, 20); 1in,2.5in; 3600u";

/// Where the slots of a card begin.
#[derive(Clone, PartialEq, Eq, Debug)]
pub enum Slots {
    /// At these places from the left of the paper, in units, ascending.
    Places { units: Vec<u32>, named: Named },
    /// At the tab stops in force.
    Stops,
}

/// How places were named.
#[derive(Clone, Copy, PartialEq, Eq, Debug)]
pub enum Named {
    /// As columns of this width in units.
    Columns(u32),
    Units,
    /// All or some in inches.
    Inches,
}

/// The kinds of pictures.
#[derive(Clone, Copy, PartialEq, Eq, Debug)]
pub enum Kind {
    Svg,
    Png,
    Pdf,
}

/// What is asked for.
#[derive(Clone, PartialEq, Eq, Default, Debug)]
pub struct Options {
    pub settings: Settings,
    /// Cells of the text to an inch; none: as the page needs.
    pub cpi: Option<u32>,
    /// The pictures, if such are to be written, and their name.
    pub picture: Option<(Kind, OsString)>,
    pub slots: Option<Slots>,
    /// Whether records are listed, or slots told, and how.
    pub listing: Option<Form>,
    pub follow: bool,
    /// Whether the files are one stream.
    pub join: bool,
    pub strict: bool,
    /// Whether styles are shown, if it does not go by the terminal.
    pub color: Option<bool>,
    /// The files to read; none: standard input.
    pub files: Vec<OsString>,
}

/// What the command line says to do.
#[derive(Clone, PartialEq, Eq, Debug)]
pub enum Choice {
    Show(Options),
    Help,
    Version,
}

impl Options {
    /// Asks for pictures of this name.
    fn draw(&mut self, kind: Kind, name: OsString, taken: &str) -> Result<(), String> {
        if name.is_empty() {
            return Err(taken.into());
        }
        match &self.picture {
            Some((other, _)) if *other != kind => Err("one of --svg, --png and --pdf".into()),
            _ => {
                self.picture = Some((kind, name));
                Ok(())
            }
        }
    }

    /// The captures: the files of each.
    pub fn captures(&self) -> Vec<Vec<OsString>> {
        if self.join || self.files.len() < 2 {
            return vec![self.files.clone()];
        }
        self.files.iter().map(|file| vec![file.clone()]).collect()
    }
}

/// What these words ask for, or what is wrong with them. Of two of one option
/// the last holds.
pub fn choice(words: impl IntoIterator<Item = OsString>) -> Result<Choice, String> {
    let mut words = words.into_iter();
    let mut options = Options::default();
    while let Some(word) = words.next() {
        let (name, value) = parts(&word);
        if value.is_some() && FLAGS.contains(&name.as_str()) {
            return Err(format!("{name} takes no value"));
        }
        match name.as_str() {
            "--" if value.is_none() => {
                options.files.extend(words);
                break;
            }
            "-h" | "--help" => return Ok(Choice::Help),
            "-V" | "--version" => return Ok(Choice::Version),
            _ if name.len() > 1 && name.starts_with('-') => {
                let value = || value.or_else(|| words.next());
                set(&mut options, &name, value)?;
            }
            _ => options.files.push(word),
        }
    }
    whole(&options)?;
    Ok(Choice::Show(options))
}

/// A word's name and, where it is of the form `--name=value`, its value.
/// The value may be of any bytes, as a file's name may.
fn parts(word: &OsStr) -> (String, Option<OsString>) {
    let bytes = word.as_bytes();
    let sign = bytes.iter().position(|&byte| byte == b'=');
    match sign.filter(|_| bytes.starts_with(b"--")) {
        Some(sign) => {
            let name = String::from_utf8_lossy(&bytes[..sign]);
            let value = OsStr::from_bytes(&bytes[sign + 1..]);
            (name.into_owned(), Some(value.into()))
        }
        None => (word.to_string_lossy().into_owned(), None),
    }
}

/// Sets the option of this name; its value, if it takes one, is asked for.
fn set(
    options: &mut Options,
    name: &str,
    value: impl FnOnce() -> Option<OsString>,
) -> Result<(), String> {
    let number = |value: Option<OsString>| value.and_then(|value| number(value.to_str()?));
    match name {
        "--dots" => options.settings.resolution = number(value()).ok_or(DOTS)?,
        "--width" => options.settings.width = number(value()).ok_or(WIDTH)?,
        "--cpi" => options.cpi = Some(number(value()).ok_or(CPI)?),
        "--svg" => options.draw(Kind::Svg, value().ok_or(SVG)?, SVG)?,
        "--png" => options.draw(Kind::Png, value().ok_or(PNG)?, PNG)?,
        "--pdf" => options.draw(Kind::Pdf, value().ok_or(PDF)?, PDF)?,
        "--slots" => {
            let list = value().and_then(|list| places(list.to_str()?));
            options.slots = Some(list.ok_or(SLOTS)?);
        }
        "--auto-feed" => options.settings.auto_feed = 1,
        "--slot-stops" => options.slots = Some(Slots::Stops),
        "--follow" => options.follow = true,
        "--join" => options.join = true,
        "--strict" => options.strict = true,
        "--records" => options.listing = options.listing.or(Some(Form::Words)),
        "--json" => options.listing = Some(Form::Json),
        "--color" => {
            options.color = match value().as_deref().and_then(OsStr::to_str) {
                Some("always") => Some(true),
                Some("never") => Some(false),
                Some("auto") => None,
                _ => return Err(COLOR.into()),
            }
        }
        _ => {
            let name = name.escape_debug();
            return Err(format!("{name} is no option; see card --help"));
        }
    }
    Ok(())
}

/// A number of at most nine digits.
fn number(word: &str) -> Option<u32> {
    let digits = word.bytes().all(|byte| byte.is_ascii_digit());
    let taken = digits && (1..=9).contains(&word.len());
    taken.then(|| word.parse().ok()).flatten()
}

/// The places of a list with commas, ascending strictly: columns, with their
/// pitch behind the last, or each in inches or units.
fn places(list: &str) -> Option<Slots> {
    let (list, pitch) = match list.rsplit_once('@') {
        Some((list, pitch)) => (list, Some(pitch)),
        None => (list, None),
    };
    let is_column = |word: &str| word.bytes().all(|byte| byte.is_ascii_digit());
    let named = if pitch.is_some() || list.split(',').all(is_column) {
        let pitch = pitch.unwrap_or(PITCHES[0].0);
        Named::Columns(PITCHES.iter().find(|(name, _)| *name == pitch)?.1)
    } else if list.contains('n') {
        Named::Inches
    } else {
        Named::Units
    };
    let place = |word| match named {
        Named::Columns(width) => number(word)?.checked_mul(width),
        _ => length(word),
    };
    let units: Vec<u32> = list.split(',').map(place).collect::<Option<_>>()?;
    let ascending = units.windows(2).all(|pair| pair[0] < pair[1]);
    let on_paper = units.iter().all(|&units| units < WIDEST);
    (ascending && on_paper).then_some(Slots::Places { units, named })
}

/// A length in units: of a whole number of them, or of inches, to the nearest.
fn length(word: &str) -> Option<u32> {
    if let Some(units) = word.strip_suffix('u') {
        return number(units);
    }
    let inches = word.strip_suffix("in")?;
    let (whole, part) = inches.split_once('.').unwrap_or((inches, "0"));
    let (whole, parts) = (u64::from(number(whole)?), u64::from(number(part)?));
    let tenth = 10_u64.pow(part.len() as u32);
    let units = whole * 3_600 + (2 * parts * 3_600 + tenth) / (2 * tenth);
    u32::try_from(units).ok()
}

/// Whether the options hold together.
fn whole(options: &Options) -> Result<(), String> {
    let Options { settings, .. } = options;
    if !options.cpi.is_none_or(|cpi| (1..=MOST_CPI).contains(&cpi)) {
        return Err(CPI.into());
    }
    let listed = options.listing.is_some();
    if options.follow && (listed || options.picture.is_some()) {
        return Err("--follow draws on the screen: no pictures, --records or --json".into());
    }
    if options.picture.is_some() && (listed || options.slots.is_some()) {
        return Err("pictures are of pages: no --slots, --records or --json".into());
    }
    if options.listing == Some(Form::Words) && options.slots.is_some() {
        return Err("--records takes no slots; --json does".into());
    }
    let start = |settings: &Settings| State::start(settings).0 == Answer::Done;
    let plain = Settings::default();
    let resolution = settings.resolution;
    if !start(&Settings {
        resolution,
        ..plain
    }) {
        return Err(DOTS.into());
    }
    if !start(settings) {
        return Err(WIDTH.into());
    }
    Ok(())
}
