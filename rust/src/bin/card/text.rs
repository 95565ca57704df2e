//! A page as text: letters at their places in a grid of cells, image bytes as
//! braille cells.

use crate::braille::Dots;
use crate::grid::{fill, Cell, Grid};
use crate::letters::{BOLD, DOUBLE_WIDTH, ITALIC, UNDERLINE};
use crate::line::{letters, Letter};
use crate::page::Page;
use ierbulosc::State;
use std::fmt::Write;
use std::ops::RangeInclusive;

/// What is said where words are not at their places.
pub const CROWDED: &str =
    "letters stand closer than the text's cells, words are moved or cut; see --cpi";

/// How a page is drawn.
#[derive(Clone, Copy)]
pub struct Look {
    /// Cells to an inch, if they do not follow the page.
    pub cpi: Option<u32>,
    /// Whether styles are shown.
    pub styled: bool,
    /// The cells of the screen across, if they are known.
    pub columns: Option<usize>,
}

/// The cells to an inch that a page may have of itself.
const GRIDS: [u32; 5] = [10, 12, 15, 17, 20];

/// The cells to an inch in which letters have room: the fewest that the narrowest
/// of them needs, or, where the screen has not as many, those that it has, if
/// there are such.
fn cells_to_inch(letters: &[Letter], look: Look, across: u32) -> u32 {
    let width = |letter: &Letter| {
        let halves = if letter.style & DOUBLE_WIDTH != 0 {
            2
        } else {
            1
        };
        u32::from(letter.advance) / halves
    };
    let inked = || letters.iter().filter(|letter| !letter.is_blank());
    let narrowest = inked().map(width).min().unwrap_or(360);
    let right = inked().map(|letter| u32::from(letter.column)).max();
    let on_screen = |cpi: &&u32| {
        let last = (right.unwrap_or(0) * *cpi / across) as usize;
        look.columns.is_none_or(|columns| last < columns)
    };
    let needed = GRIDS.iter().position(|cpi| narrowest * cpi >= 3_600);
    let up_to = &GRIDS[..needed.map_or(GRIDS.len(), |place| place + 1)];
    *up_to.iter().rev().find(on_screen).unwrap_or(&GRIDS[0])
}

/// Appends the page's lines; whether each word is whole and begins at its place.
/// The state tells the dots to the inch.
pub fn draw(page: &Page, state: &State, look: Look, text: &mut String) -> bool {
    let mut letters: Vec<Letter> = letters(page, state.dots_across).collect();
    letters.sort_by_key(|letter| (letter.row, letter.column));
    let lines: Vec<&[Letter]> = letters.chunk_by(|one, next| one.row == next.row).collect();
    let rows = rows(&lines, state.dots_down);
    let cpi = look.cpi;
    let cpi = cpi.unwrap_or_else(|| cells_to_inch(&letters, look, state.dots_across));
    let dots = Dots::of(page, state, cpi, &anchors(&lines, &rows));
    let count = rows.last().map_or(0, |last| last + 1).max(dots.rows());
    let grid = Grid {
        cpi,
        across: state.dots_across,
    };
    let mut lines = rows.iter().zip(&lines).peekable();
    let mut cells = Vec::new();
    let mut at_places = true;
    for row in 0..count {
        cells.clear();
        if let Some((_, line)) = lines.next_if(|next| *next.0 == row) {
            at_places &= grid.place(line, &mut cells);
        }
        dots.fill(row, |cell, sign| fill(&mut cells, cell, sign));
        write(&cells, look, text);
        text.push('\n');
    }
    at_places
}

/// The row of the text for each line: its sixth of an inch, or below the line
/// before it if that lies closer.
fn rows(lines: &[&[Letter]], down: u32) -> Vec<usize> {
    let mut free = 0;
    let row = |line: &&[Letter]| {
        let sixth = (12 * u32::from(line[0].row) + down) / (2 * down);
        let row = free.max(sixth as usize);
        free = row + 1;
        row
    };
    lines.iter().map(row).collect()
}

/// The dot row of each line, with its row of the text.
fn anchors(lines: &[&[Letter]], rows: &[usize]) -> Vec<(u32, usize)> {
    let dots = lines.iter().map(|line| u32::from(line[0].row));
    dots.zip(rows.iter().copied()).collect()
}

/// Appends a line of cells, without the blanks at its end.
fn write(cells: &[Cell], look: Look, text: &mut String) {
    let shown = |cell: &Cell| cell.sign != ' ' || look.styled && cell.style & UNDERLINE != 0;
    let end = cells.iter().rposition(shown).map_or(0, |last| last + 1);
    if !look.styled {
        return text.extend(cells[..end].iter().map(|cell| cell.sign));
    }
    let mut style = 0;
    let mut at = 0;
    while at < end {
        let cell = cells[at];
        let takes_next = cells.get(at + 1).is_some_and(|next| next.second);
        let wide = if takes_next { wide(cell) } else { None };
        change(&mut style, cell.style & !DOUBLE_WIDTH, text);
        text.push(wide.unwrap_or(cell.sign));
        at += if wide.is_some() { 2 } else { 1 };
    }
    change(&mut style, 0, text);
}

/// The forms of double width letters that take two cells of a terminal.
const WIDE: RangeInclusive<char> = '\u{FF01}'..='\u{FF5E}';

/// That of a letter, if there is one.
fn wide(cell: Cell) -> Option<char> {
    let taken = cell.style & DOUBLE_WIDTH != 0 && ('!'..='~').contains(&cell.sign);
    taken.then(|| char::from_u32(cell.sign as u32 + 0xFEE0))?
}

/// The characters of a line, each with the cells that it takes on a terminal: a
/// change of style takes none.
fn widths(line: &str) -> impl Iterator<Item = (char, usize)> + '_ {
    line.chars().scan(false, |in_change, sign| {
        let change = *in_change || sign == '\x1B';
        *in_change = change && sign != 'm';
        let width = if WIDE.contains(&sign) { 2 } else { 1 };
        Some((sign, if change { 0 } else { width }))
    })
}

/// Appends as much of a line as has room in so many cells, with every change of
/// style; the last cell says that something is left out.
pub fn clip(line: &str, width: usize, text: &mut String) {
    let whole = widths(line).map(|(_, width)| width).sum::<usize>() <= width;
    let room = if whole { width } else { width - 1 };
    let mut mark = (!whole).then_some('…');
    let mut cells = 0;
    for (sign, width) in widths(line) {
        cells += width;
        if width == 0 || cells <= room {
            text.push(sign);
        } else {
            text.extend(mark.take());
        }
    }
}

/// Appends what makes a terminal show another style.
fn change(style: &mut u16, to: u16, text: &mut String) {
    if *style == to {
        return;
    }
    *style = to;
    text.push_str("\x1B[0");
    for (bit, code) in [(BOLD, 1), (ITALIC, 3), (UNDERLINE, 4)] {
        if to & bit != 0 {
            // Writing to a string does not fail.
            let _ = write!(text, ";{code}");
        }
    }
    text.push('m');
}
