//! A page as an SVG in the page's real size: letters as text in the viewer's own
//! font, and the dots of image bytes.
//!
//! Lengths are in units of 1/3600 inch.

use crate::braille::down;
use crate::letters::{BOLD, DOUBLE_STRIKE, ITALIC, OUTLINE, SHADOW, UNDERLINE};
use crate::page::Page;
use crate::runs::{runs, Run, SIZE};
use ierbulosc::{Record, State};
use std::fmt::{self, Write};

/// What shows around the paper: accents of the first row are above its edge.
const BORDER: u32 = 360;
/// The width of a letter of [`SIZE`] in a font of even widths.
const NATURAL: u32 = 300;

/// The picture of a page, of which these are the mark and the title.
pub fn picture(mark: &str, title: &str, page: &Page, state: &State) -> String {
    let mut svg = String::new();
    // Writing to a string does not fail.
    let _ = head(&mut svg, mark, title, state);
    images(&mut svg, page);
    letters(&mut svg, page, state);
    svg + "</svg>\n"
}

/// Appends a whole number. A picture has many, and `write!` takes several times
/// as long.
fn whole(svg: &mut String, mut number: u32) {
    let mut digits = [b'0'; 10];
    let mut begin = digits.len();
    while number > 0 || begin == digits.len() {
        begin -= 1;
        digits[begin] += (number % 10) as u8;
        number /= 10;
    }
    svg.extend(digits[begin..].iter().map(|&digit| char::from(digit)));
}

/// Appends a fraction, to the nearest thousandth.
fn fraction(svg: &mut String, above: u32, below: u32) {
    let thousandths = (u64::from(above) * 1_000 + u64::from(below) / 2) / u64::from(below);
    whole(svg, (thousandths / 1_000) as u32);
    let mut rest = (thousandths % 1_000) as u32;
    if rest > 0 {
        svg.push('.');
        while rest > 0 {
            whole(svg, rest / 100);
            rest = rest % 100 * 10;
        }
    }
}

/// The paper in its real size within its border, and the margins: left, right and,
/// where lines are skipped, the edge. Printed, it is one sheet.
fn head(svg: &mut String, mark: &str, title: &str, state: &State) -> fmt::Result {
    let (width, height) = (state.paper_width, state.page);
    let (left, right, edge) = (state.left, state.right, state.page - state.skip);
    let (whole_width, whole_height) = (width + 2 * BORDER, height + 2 * BORDER);
    let inches = |units: u32| f64::from(units) / 3_600.0;
    let (across, along) = (inches(whole_width), inches(whole_height));
    writeln!(svg, r#"<?xml version="1.0" encoding="UTF-8"?>"#)?;
    writeln!(svg, "<!-- {mark} -->")?;
    write!(
        svg,
        r#"<svg xmlns="http://www.w3.org/2000/svg" width="{across}in" height="{along}in""#
    )?;
    writeln!(
        svg,
        r#" viewBox="-{BORDER} -{BORDER} {whole_width} {whole_height}">"#
    )?;
    svg.push_str("<title>");
    title.chars().for_each(|sign| escaped(svg, sign));
    svg.push_str("</title>\n");
    writeln!(
        svg,
        "<style>@page{{size:{across}in {along}in;margin:0}}</style>"
    )?;
    writeln!(
        svg,
        r##"<rect x="-{BORDER}" y="-{BORDER}" width="{whole_width}" height="{whole_height}" fill="#f6f6f6"/>"##
    )?;
    // A hundredth of an inch: some one element of a screen.
    writeln!(
        svg,
        r##"<rect width="{width}" height="{height}" fill="white" stroke="#c8c8c8" stroke-width="36"/>"##
    )?;
    write!(svg, r#"<path d="M{left} 0V{height}M{right} 0V{height}"#)?;
    if edge < height {
        write!(svg, "M0 {edge}H{width}")?;
    }
    writeln!(svg, r##"" stroke="#c8c8c8" stroke-width="36"/>"##)
}

/// The dots of the image bytes.
fn images(svg: &mut String, page: &Page) {
    let mut path = String::new();
    for (record, place) in page.images.records().zip(&page.images.places) {
        if let Record::Im {
            byte,
            part,
            advance,
            ..
        } = record
        {
            let (below, height) = down(part);
            let corner = (place.across, place.down + below);
            dots(&mut path, byte, corner, (advance.into(), height));
        }
    }
    if !path.is_empty() {
        *svg += &format!("<path d=\"{path}\"/>\n");
    }
}

/// The dots of an image byte, those that lie on each other as one: its left, its
/// top, and a dot's size.
fn dots(path: &mut String, byte: u8, (left, top): (u32, u32), (width, height): (u32, u32)) {
    let mut bit = 0;
    while bit < 8 {
        let rest = byte << bit;
        let (white, black) = (rest.leading_zeros(), rest.leading_ones());
        if black > 0 {
            path.push('M');
            whole(path, left);
            path.push(' ');
            whole(path, top + bit * height);
            path.push('h');
            whole(path, width);
            path.push('v');
            whole(path, black * height);
            path.push_str("h-");
            whole(path, width);
            path.push('z');
        }
        bit += white.max(black);
    }
}

/// The letters: a text for each run, with the place of each letter.
fn letters(svg: &mut String, page: &Page, state: &State) {
    let runs = runs(page, state);
    if runs.iter().any(|run| run.style & SHADOW != 0) {
        *svg += r#"<filter id="shadow"><feOffset dx="24" dy="24"/><feComponentTransfer>"#;
        *svg += r#"<feFuncA type="linear" slope="0.4"/></feComponentTransfer><feMerge>"#;
        *svg += "<feMergeNode/><feMergeNode in=\"SourceGraphic\"/></feMerge></filter>\n";
    }
    *svg += &format!("<g font-family=\"monospace\" font-size=\"{SIZE}\">\n");
    for run in &runs {
        text(svg, run);
    }
    *svg += "</g>\n";
}

/// The text of a run. Its letters are as wide as they are by themselves, whatever
/// space is between them: the whole is stretched, and the places are shrunk.
fn text(svg: &mut String, run: &Run) {
    let (size, baseline) = run.hanging();
    let height = if run.is_tall() { 2 } else { 1 };
    let stretched = (run.own, NATURAL * height);
    *svg += "<text ";
    if stretched.0 != stretched.1 {
        *svg += "transform=\"scale(";
        fraction(svg, stretched.0, stretched.1);
        *svg += " 1)\" ";
    }
    *svg += "x=\"";
    for place in 0..run.count {
        if place > 0 {
            svg.push(' ');
        }
        let across = run.place.across + place * run.advance;
        fraction(svg, across * stretched.1, stretched.0);
    }
    *svg += "\" y=\"";
    whole(svg, run.place.down + baseline);
    svg.push('"');
    if run.advance > run.own {
        // For viewers that know only the first place.
        *svg += " letter-spacing=\"";
        fraction(svg, (run.advance - run.own) * stretched.1, stretched.0);
        svg.push('"');
    }
    attributes(svg, run.style, size);
    svg.push('>');
    for sign in run.text.chars() {
        // Blanks that are underlined must not be taken away.
        escaped(
            svg,
            if run.is_underlined() && sign == ' ' {
                '\u{a0}'
            } else {
                sign
            },
        );
    }
    *svg += "</text>\n";
}

/// What shows a style.
fn attributes(svg: &mut String, style: u16, size: u32) {
    if size != SIZE {
        *svg += &format!(r#" font-size="{size}""#);
    }
    let shown = [
        (BOLD | DOUBLE_STRIKE | OUTLINE, r#" font-weight="bold""#),
        (ITALIC, r#" font-style="italic""#),
        (UNDERLINE, r#" text-decoration="underline""#),
        (OUTLINE, r#" fill="white" stroke="black" stroke-width="24""#),
        (SHADOW, r#" filter="url(#shadow)""#),
    ];
    let shown = shown.iter().filter(|(bits, _)| style & bits != 0);
    svg.extend(shown.map(|(_, words)| *words));
}

/// Appends a character in the words of SVG.
fn escaped(svg: &mut String, sign: char) {
    match sign {
        '&' => *svg += "&amp;",
        '<' => *svg += "&lt;",
        '>' => *svg += "&gt;",
        '\0'..='\x1F' => svg.push('\u{fffd}'),
        _ => svg.push(sign),
    }
}
