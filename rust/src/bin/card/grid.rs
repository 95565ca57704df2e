//! The letters of a line in a grid of cells.

use crate::letters::{DOUBLE_WIDTH, REDUCED, UNDERLINE};
use crate::line::{inked, shown, Letter};

/// A cell: a letter with its style, or nothing.
#[derive(Clone, Copy, PartialEq, Eq)]
pub struct Cell {
    pub sign: char,
    pub style: u16,
    /// Whether the double width letter before it takes this cell too.
    pub second: bool,
}

const EMPTY: Cell = Cell {
    sign: ' ',
    style: 0,
    second: false,
};
const SECOND: Cell = Cell {
    second: true,
    ..EMPTY
};
/// What stands for a blank before a word that is further to the right than on
/// the page.
const MOVED: Cell = Cell {
    sign: '»', ..EMPTY
};
/// What stands for letters that are cut off.
const CUT: Cell = Cell {
    sign: '…', ..EMPTY
};

/// The cells of the text across.
#[derive(Clone, Copy)]
pub struct Grid {
    /// Cells to the inch.
    pub cpi: u32,
    /// Dots to the inch.
    pub across: u32,
}

impl Grid {
    /// The cell that a letter stands in by its place; half a dot is for
    /// rounding.
    fn cell(self, letter: &Letter) -> usize {
        ((2 * u32::from(letter.column) + 1) * self.cpi / (2 * self.across)) as usize
    }

    /// Whether a letter is of double width and as wide as two cells.
    fn takes_two(self, letter: &Letter) -> bool {
        letter.style & DOUBLE_WIDTH != 0 && u32::from(letter.advance) * self.cpi >= 2 * 3_600
    }

    /// Sets the letters of a line into its cells; whether each word is whole and
    /// begins at its place. Where one has no room there, what reaches into it is
    /// cut; but running text, in which no gap is wider than a blank, goes on to
    /// the right, with a sign before each word that does.
    pub fn place(self, line: &[Letter], cells: &mut Vec<Cell>) -> bool {
        let shown = shown(line, self.across);
        let letters = inked(&shown);
        let far = |pair: &[Letter]| pair[1].is_far(&pair[0], self.across);
        let running = !letters.windows(2).any(far);
        let mut at_places = true;
        for word in letters.chunk_by(|one, next| !next.begins_word(one, self.across)) {
            let natural = self.cell(&word[0]);
            give_way(cells, natural.saturating_sub(1));
            if !cells.is_empty() && natural <= cells.len() {
                at_places = false;
                if running || natural == 0 {
                    cells.push(MOVED);
                } else {
                    cut(cells, natural);
                }
            }
            self.set(word, cells);
        }
        self.underline(&shown, cells);
        at_places
    }

    /// Sets a word behind what is there: its letters are beside each other, since a
    /// free cell would read as a blank, unless there is space of a cell between
    /// them.
    fn set(self, word: &[Letter], cells: &mut Vec<Cell>) {
        for (place, letter) in word.iter().enumerate() {
            let cell = match place {
                0 => {
                    give_way(cells, self.cell(letter));
                    self.cell(letter).max(cells.len())
                }
                _ => cells.len() + self.space(&word[place - 1], letter),
            };
            cells.resize(cell, EMPTY);
            cells.push(Cell {
                sign: letter.sign,
                style: letter.style & !REDUCED,
                second: false,
            });
            if self.takes_two(letter) {
                cells.push(SECOND);
            }
        }
    }

    /// The free cells between two letters of a word; a quarter is for rounding.
    fn space(self, before: &Letter, letter: &Letter) -> usize {
        let across = i64::from(self.across);
        let apart = i64::from(letter.column) - i64::from(before.last);
        let space = apart * 3_600 - i64::from(before.own_width()) * across;
        let quarters = 4 * space * i64::from(self.cpi) / (3_600 * across);
        (quarters.max(0) as usize + 1) / 4
    }

    /// Underlines the cells of underlined blanks.
    fn underline(self, letters: &[Letter], cells: &mut Vec<Cell>) {
        let underlined = |letter: &&Letter| letter.is_blank() && letter.style & UNDERLINE != 0;
        for blank in letters.iter().filter(underlined) {
            let first = self.cell(blank);
            let last = first + usize::from(self.takes_two(blank));
            for place in first..=last {
                let cell = cell_of(cells, place);
                if cell.sign == ' ' && !cell.second {
                    cell.style = UNDERLINE;
                }
            }
        }
    }
}

/// Takes back the second cell of a double width letter, where only so many cells
/// are free for what is there.
fn give_way(cells: &mut Vec<Cell>, free: usize) {
    if cells.len() > free && cells.last() == Some(&SECOND) {
        cells.pop();
    }
}

/// Leaves so many cells, the last of which says that letters are lost.
fn cut(cells: &mut Vec<Cell>, count: usize) {
    cells.truncate(count);
    if let Some(last) = cells.last_mut() {
        *last = CUT;
    }
}

/// Sets a sign into a cell where nothing stands.
pub fn fill(cells: &mut Vec<Cell>, cell: usize, sign: char) {
    let cell = cell_of(cells, cell);
    if cell.sign == ' ' {
        cell.sign = sign;
        cell.second = false;
    }
}

/// The cell at this place of a line.
fn cell_of(cells: &mut Vec<Cell>, place: usize) -> &mut Cell {
    if cells.len() <= place {
        cells.resize(place + 1, EMPTY);
    }
    &mut cells[place]
}
