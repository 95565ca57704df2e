//! The margins and the horizontal tab stops that were in force while a page was
//! printed.

use ierbulosc::State;

/// The stops of power-on, in columns.
const POWER_ON: [u32; 9] = [8, 16, 24, 32, 40, 48, 56, 64, 72];
/// The most changes of a page that are remembered.
const MANY: usize = 1 << 10;

/// Margins in units, and tab stops in columns from the left one.
#[derive(Clone, PartialEq, Eq)]
pub struct Layout {
    pub left: u32,
    pub right: u32,
    stops: Vec<u32>,
}

impl Layout {
    /// What is in force in a state.
    pub fn of(state: &State) -> Layout {
        Layout {
            left: state.left,
            right: state.right,
            stops: state.columns.held().to_vec(),
        }
    }

    /// Whether it is what is in force in a state.
    pub fn is_of(&self, state: &State) -> bool {
        (self.left, self.right) == (state.left, state.right) && self.stops == state.columns.held()
    }

    /// Whether the card has set stops: others than those of power-on, and some.
    pub fn is_set(&self) -> bool {
        !self.stops.is_empty() && self.stops != POWER_ON
    }

    /// The places of the stops, in units, where columns are so wide.
    pub fn places(&self, width: u32) -> impl Iterator<Item = u32> + '_ {
        self.stops.iter().map(move |stop| self.left + stop * width)
    }
}

/// The layouts of a page, each with the bytes of letters that came before it,
/// ascending strictly.
pub struct Layouts {
    changes: Vec<(usize, Layout)>,
    /// Of so many bytes it is no longer known.
    unknown: usize,
}

impl Layouts {
    pub fn new(layout: Layout) -> Layouts {
        Layouts {
            changes: vec![(0, layout)],
            unknown: 0,
        }
    }

    /// The layout in force now.
    pub fn now(&self) -> &Layout {
        &self.changes[self.changes.len() - 1].1
    }

    /// The layout in which the letter at this byte was printed, if it is known.
    pub fn at(&self, byte: usize) -> Option<&Layout> {
        let after = self.changes.partition_point(|(from, _)| *from <= byte);
        let known = byte >= self.unknown && after > 0;
        known.then(|| &self.changes[after - 1].1)
    }

    /// Another one comes into force after so many bytes.
    pub fn change(&mut self, bytes: usize, layout: Layout) {
        if self.changes.len() == MANY {
            self.forget(bytes);
        }
        self.changes.retain(|(from, _)| *from < bytes);
        self.changes.push((bytes, layout));
    }

    /// Only so many bytes are left.
    pub fn cut(&mut self, bytes: usize) {
        if self.changes[self.changes.len() - 1].0 > bytes {
            let now = self.now().clone();
            self.change(bytes, now);
        }
        self.unknown = self.unknown.min(bytes);
    }

    /// The bytes from here on have been thinned to so many in all: if the layout
    /// has changed among them, it is no longer known when.
    pub fn thin(&mut self, from: usize, bytes: usize) {
        if self.changes[self.changes.len() - 1].0 > from {
            self.forget(bytes);
        }
    }

    fn forget(&mut self, bytes: usize) {
        let now = self.now().clone();
        self.changes.clear();
        self.changes.push((bytes, now));
        self.unknown = bytes;
    }
}
