//! All pages in one PDF, in their real size: letters in Courier, which every viewer
//! has, at their exact places and widths, dots of image bytes as masks.
//!
//! A point is 50 units.

use crate::files::{Part, MARK};
use crate::layout::Layout;
use crate::letters::{BOLD, DOUBLE_STRIKE, ITALIC, OUTLINE, SHADOW};
use crate::page::{Page, Place};
use crate::runs::{runs, Run};
use crate::{unwritten, Outcome};
use ierbulosc::{Record, Settings, State};
use std::ffi::OsStr;
use std::fmt::Write as _;
use std::io::{self, Write};
use std::path::Path;

/// The fonts: plain, bold, italic and both. The objects before them are the catalog
/// and the list of pages.
const FONTS: [&str; 4] = [
    "Courier",
    "Courier-Bold",
    "Courier-Oblique",
    "Courier-BoldOblique",
];
const CATALOG: usize = 1;
const PAGES: usize = 2;
const FIRST_FONT: usize = 3;
const INFO: usize = FIRST_FONT + FONTS.len();

/// The characters of WinAnsi that are not those of Latin-1 in their places, as far
/// as a letter can be one.
const OTHERS: [(char, u8); 3] = [('ƒ', 0x83), ('†', 0x86), ('™', 0x99)];

/// A PDF that is being written.
pub struct Pdf {
    /// The file; none: standard output.
    part: Option<Part>,
    /// The bytes written, and where each object begins, from the first on.
    length: u64,
    objects: Vec<u64>,
    pages: Vec<usize>,
}

impl Pdf {
    /// A PDF of this name, and what it is made of.
    pub fn new(name: &OsStr, title: &str) -> Outcome<Pdf> {
        let part = match name == "-" {
            true => None,
            false => Some(Part::new(Path::new(name))?),
        };
        let mut pdf = Pdf {
            part,
            length: 0,
            objects: vec![0; INFO],
            pages: Vec::new(),
        };
        // Bytes above 127 say that it is not all text.
        pdf.write(b"%PDF-1.4\n%\xE2\xE3\xCF\xD3\n")?;
        for (place, font) in FONTS.iter().enumerate() {
            let font =
                format!("<</Type/Font/Subtype/Type1/BaseFont/{font}/Encoding/WinAnsiEncoding>>");
            pdf.object(FIRST_FONT + place, &font)?;
        }
        pdf.object(
            INFO,
            &format!("<</Title {}/Producer({MARK})>>", utf16(title)),
        )?;
        Ok(pdf)
    }

    fn write(&mut self, bytes: &[u8]) -> Outcome<()> {
        self.length += bytes.len() as u64;
        match &mut self.part {
            Some(part) => part.write(bytes),
            None => io::stdout().write_all(bytes).map_err(unwritten),
        }
    }

    /// Writes the object of this number.
    fn object(&mut self, number: usize, object: &str) -> Outcome<()> {
        if self.objects.len() < number {
            self.objects.resize(number, 0);
        }
        self.objects[number - 1] = self.length;
        self.write(format!("{number} 0 obj\n{object}\nendobj\n").as_bytes())
    }

    /// Adds a page.
    pub fn page(&mut self, page: &Page, state: &State) -> Outcome<()> {
        let mut drawn = String::new();
        images(&mut drawn, page, state.page);
        for run in runs(page, state) {
            text(&mut drawn, &run, state.page);
        }
        let number = self.objects.len() + 1;
        let contents = number + 1;
        self.object(
            contents,
            &format!("<</Length {}>>stream\n{drawn}\nendstream", drawn.len()),
        )?;
        let (width, height) = (points(state.paper_width.into()), points(state.page.into()));
        let fonts: String = (0..FONTS.len())
            .map(|font| format!("/F{font} {} 0 R", FIRST_FONT + font))
            .collect();
        self.pages.push(number);
        self.object(
            number,
            &format!(
                "<</Type/Page/Parent {PAGES} 0 R/MediaBox[0 0 {width} {height}]\
                 /Resources<</Font<<{fonts}>>>>/Contents {contents} 0 R>>"
            ),
        )
    }

    /// Adds an empty page.
    fn empty_page(&mut self, settings: &Settings) -> Outcome<()> {
        let state = State::start(settings).1;
        self.page(&Page::new(1, Layout::of(&state)), &state)
    }

    /// Writes what must come last, and gives the file its name. Viewers refuse a PDF
    /// without a page.
    pub fn finish(mut self, settings: &Settings) -> Outcome<()> {
        if self.pages.is_empty() {
            self.empty_page(settings)?;
        }
        let kids: String = self
            .pages
            .iter()
            .map(|page| format!("{page} 0 R "))
            .collect();
        let count = self.pages.len();
        self.object(
            PAGES,
            &format!("<</Type/Pages/Kids[{kids}]/Count {count}>>"),
        )?;
        self.object(CATALOG, &format!("<</Type/Catalog/Pages {PAGES} 0 R>>"))?;
        let (begin, size) = (self.length, self.objects.len() + 1);
        let mut table = format!("xref\n0 {size}\n0000000000 65535 f \n");
        for place in &self.objects {
            let _ = writeln!(table, "{place:010} 00000 n ");
        }
        let _ = write!(
            table,
            "trailer\n<</Size {size}/Root {CATALOG} 0 R/Info {INFO} 0 R>>\nstartxref\n{begin}\n%%EOF\n"
        );
        self.write(table.as_bytes())?;
        self.part.map_or(Ok(()), Part::finish)
    }
}

/// Units as points.
fn points(units: i64) -> String {
    let sign = if units < 0 { "-" } else { "" };
    let units = units.unsigned_abs();
    match (units / 50, units % 50 * 2) {
        (whole, 0) => format!("{sign}{whole}"),
        (whole, hundredths) => format!("{sign}{whole}.{hundredths:02}"),
    }
}

/// A number with at most four places behind the point.
fn short(number: f64) -> String {
    let text = format!("{number:.4}");
    text.trim_end_matches('0').trim_end_matches('.').into()
}

/// A text as a string of UTF-16.
fn utf16(text: &str) -> String {
    let codes: String = text
        .encode_utf16()
        .map(|code| format!("{code:04X}"))
        .collect();
    format!("<FEFF{codes}>")
}

/// The byte of a character in WinAnsi, if it has one.
fn win_ansi(sign: char) -> Option<u8> {
    let other = OTHERS.iter().find(|(other, _)| *other == sign);
    match (u8::try_from(sign).ok(), other) {
        (_, Some((_, byte))) => Some(*byte),
        (Some(byte @ (0x20..=0x7E | 0xA0..)), _) => Some(byte),
        _ => None,
    }
}

/// A string of bytes.
fn string(bytes: &[u8]) -> String {
    let mut text = String::from("(");
    for &byte in bytes {
        match byte {
            b'(' | b')' | b'\\' => text.extend(['\\', char::from(byte)]),
            0x20..=0x7E => text.push(char::from(byte)),
            _ => {
                let _ = write!(text, "\\{byte:03o}");
            }
        }
    }
    text + ")"
}

/// The letters of a run. Those that are not in WinAnsi are boxes, which are copied
/// as what they are.
fn text(drawn: &mut String, run: &Run, height: u32) {
    let mut at = 0;
    let signs: Vec<char> = run.text.chars().collect();
    let known = |one: &char, next: &char| win_ansi(*one).is_some() && win_ansi(*next).is_some();
    for part in signs.chunk_by(known) {
        let across = run.place.across + at * run.advance;
        let bytes: Vec<u8> = part.iter().filter_map(|&sign| win_ansi(sign)).collect();
        if bytes.len() == part.len() {
            letters(drawn, run, across, height, &string(&bytes));
        } else {
            boxed(drawn, run, across, height, part[0]);
        }
        at += part.len() as u32;
    }
    if run.is_underlined() {
        let (_, baseline) = run.hanging();
        let top = run.place.down + baseline + 50;
        rectangle(
            drawn,
            (run.place.across, top),
            (run.count * run.advance, 24),
            height,
        );
        drawn.push_str("f\n");
    }
}

/// A rectangle by its left, its top and its size.
fn rectangle(drawn: &mut String, (left, top): (u32, u32), size: (u32, u32), height: u32) {
    let bottom = i64::from(height) - i64::from(top) - i64::from(size.1);
    let (left, bottom) = (points(left.into()), points(bottom));
    let (wide, high) = (points(size.0.into()), points(size.1.into()));
    let _ = write!(drawn, "{left} {bottom} {wide} {high} re ");
}

/// Letters of WinAnsi from this place on: stretched to their own width, with the
/// space between them that makes up their advance.
fn letters(drawn: &mut String, run: &Run, across: u32, height: u32, string: &str) {
    let (size, baseline) = run.hanging();
    let bold = run.style & (BOLD | DOUBLE_STRIKE | OUTLINE) != 0;
    let italic = run.style & ITALIC != 0;
    let font = usize::from(bold) + 2 * usize::from(italic);
    // The letters of Courier are 0.6 of their size wide.
    let natural = if run.is_tall() { 600.0 } else { 300.0 };
    let stretched = f64::from(run.own) / natural;
    let space = f64::from(run.advance) / stretched - 0.6 * f64::from(size);
    let set = format!(
        "/F{font} {} Tf {} Tz {} Tc",
        points(size.into()),
        short(100.0 * stretched),
        short(space / 50.0)
    );
    let place = |off: u32| {
        let down = i64::from(height) - i64::from(run.place.down + baseline + off);
        format!(
            "1 0 0 1 {} {} Tm",
            points((across + off).into()),
            points(down)
        )
    };
    if run.style & SHADOW != 0 {
        let place = place(24);
        let _ = writeln!(drawn, "q 0.6 g BT {set} {place} {string} Tj ET Q");
    }
    let place = place(0);
    let _ = match run.style & OUTLINE {
        0 => writeln!(drawn, "BT {set} {place} {string} Tj ET"),
        _ => writeln!(drawn, "q 1 g 0.5 w BT {set} 2 Tr {place} {string} Tj ET Q"),
    };
}

/// A letter that Courier has not, as a box.
fn boxed(drawn: &mut String, run: &Run, across: u32, height: u32, sign: char) {
    let (size, baseline) = run.hanging();
    let (wide, high) = (run.own * 7 / 10, size * 6 / 10);
    let corner = (across + run.own * 3 / 20, run.place.down + baseline - high);
    let text = utf16(sign.encode_utf8(&mut [0; 4]));
    let _ = writeln!(drawn, "/Span<</ActualText{text}>>BDC");
    drawn.push_str("q 0.4 w ");
    rectangle(drawn, corner, (wide, high), height);
    drawn.push_str("S Q\n");
    // An invisible letter has the text's place.
    let hidden = format!("3 Tr {}", string(b"?"));
    letters(drawn, run, across, height, &hidden);
    drawn.push_str("BT 0 Tr ET\nEMC\n");
}

/// Image columns beside each other, as wide as each other.
struct Band {
    place: Place,
    advance: u32,
    /// The bytes of a column.
    parts: usize,
    bytes: Vec<u8>,
}

impl Band {
    fn columns(&self) -> usize {
        self.bytes.len() / self.parts
    }

    /// The next place across.
    fn end(&self) -> u32 {
        self.place.across + self.columns() as u32 * self.advance
    }

    /// Draws it as a mask, a row of which is a bit of each column.
    fn draw(&self, drawn: &mut String, height: u32) {
        let (columns, rows) = (self.columns(), 8 * self.parts);
        let (wide, high) = (columns as u32 * self.advance, 480);
        let bottom = i64::from(height) - i64::from(self.place.down) - high;
        let _ = writeln!(
            drawn,
            "q {} 0 0 {} {} {} cm\nBI/W {columns}/H {rows}/IM true/BPC 1/D[1 0]/F/AHx\nID",
            points(wide.into()),
            points(high),
            points(self.place.across.into()),
            points(bottom)
        );
        for row in 0..rows {
            let bit = |column: usize| {
                let byte = self.bytes.get(column * self.parts + row / 8).unwrap_or(&0);
                byte >> (7 - row % 8) & 1
            };
            for first in (0..columns).step_by(8) {
                let within = first..columns.min(first + 8);
                let byte = within.fold(0, |byte, column| byte | bit(column) << (7 - column % 8));
                let _ = write!(drawn, "{byte:02X}");
            }
            drawn.push('\n');
        }
        drawn.push_str(">\nEI Q\n");
    }
}

/// The image bytes of a page.
fn images(drawn: &mut String, page: &Page, height: u32) {
    let mut band: Option<Band> = None;
    for (record, &place) in page.images.records().zip(&page.images.places) {
        let Record::Im {
            byte,
            part,
            advance,
            ..
        } = record
        else {
            continue;
        };
        let parts = if part == 0 { 1 } else { 3 };
        let goes_on = |band: &&mut Band| {
            let whole = band.bytes.len() % parts == 0;
            let next = if whole { band.end() } else { place.across };
            (band.parts, band.advance, band.place.down) == (parts, advance.into(), place.down)
                && next == place.across
                && band.bytes.len() % parts == usize::from(part.saturating_sub(1))
        };
        match band.as_mut().filter(goes_on) {
            Some(band) => band.bytes.push(byte),
            None => {
                if let Some(band) = band.take() {
                    band.draw(drawn, height);
                }
                let missing = usize::from(part.saturating_sub(1));
                let mut bytes = vec![0; missing];
                bytes.push(byte);
                band = Some(Band {
                    place,
                    advance: advance.into(),
                    parts,
                    bytes,
                });
            }
        }
    }
    if let Some(band) = band {
        band.draw(drawn, height);
    }
}
