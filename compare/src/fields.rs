//! The registers of a state by name, to look at, compare and set.

use ierbulosc::{Channels, State, Stops, REGISTERS};
use std::fmt;

/// A register's name, and its number in a list.
#[derive(Clone, Copy, PartialEq, Eq, Debug)]
pub struct Name {
    path: &'static str,
    slot: Option<usize>,
}

impl Name {
    /// Whether it is one stop of a list.
    pub fn is_stop(&self) -> bool {
        self.path.ends_with(".stops")
    }

    /// Which number of this list it is, if it is one.
    pub fn slot_of(&self, path: &str) -> Option<usize> {
        self.slot.filter(|_| self.path == path)
    }

    /// Whether it follows from other registers.
    pub fn is_derived(&self) -> bool {
        let derived = [
            "dots_down",
            "style",
            "advance",
            "column_width",
            "advance_dots",
        ];
        derived.contains(&self.path)
    }
}

impl fmt::Display for Name {
    fn fmt(&self, f: &mut fmt::Formatter<'_>) -> fmt::Result {
        match self.slot {
            None => f.write_str(self.path),
            Some(slot) => write!(f, "{}[{slot}]", self.path),
        }
    }
}

/// One register of a state.
pub struct Field<'a> {
    pub name: Name,
    pub number: &'a mut u32,
}

/// All registers of a state, in order.
pub fn fields(state: &mut State) -> Vec<Field<'_>> {
    let mut all = Vec::with_capacity(REGISTERS);
    macro_rules! named {
        ($($name:ident)*) => {
            let State { $($name,)* columns, gathered, channels } = state;
            $(all.push(named(stringify!($name), $name));)*
            of_list(["columns.count", "columns.stops"], columns, &mut all);
            of_list(["gathered.count", "gathered.stops"], gathered, &mut all);
            let Channels { counts, stops } = channels;
            numbered("channels.counts", counts, &mut all);
            numbered("channels.stops", stops, &mut all);
        };
    }
    named! {
        kind command argument image_mode image_byte image_columns
        across down left right page skip line
        dots_across dots_down auto_feed paper_width
        pitch spacing wide wide_once reduced proportional
        bold double_strike italic underline superscript subscript
        font country outline double_height italic_table download
        draft upper_prints style advance column_width advance_dots chosen
    }
    all
}

fn named<'a>(path: &'static str, number: &'a mut u32) -> Field<'a> {
    let name = Name { path, slot: None };
    Field { name, number }
}

/// The registers of a list of stops, with the paths of its count and its
/// stops.
fn of_list<'a>(paths: [&'static str; 2], list: &'a mut Stops, to: &mut Vec<Field<'a>>) {
    let Stops { count, stops } = list;
    let [count_path, path] = paths;
    to.push(named(count_path, count));
    numbered(path, stops, to);
}

/// The registers of a list, each with its number in it.
fn numbered<'a>(path: &'static str, list: &'a mut [u32], to: &mut Vec<Field<'a>>) {
    to.extend(list.iter_mut().enumerate().map(|(slot, number)| Field {
        name: Name {
            path,
            slot: Some(slot),
        },
        number,
    }));
}

/// The registers in which two states differ, with both numbers.
pub fn differing(one: &State, other: &State) -> Vec<(Name, u32, u32)> {
    let (mut one, mut other) = (*one, *other);
    let ones = fields(&mut one).into_iter();
    ones.zip(fields(&mut other))
        .map(|(one, other)| (one.name, *one.number, *other.number))
        .filter(|(_, one, other)| one != other)
        .collect()
}

/// Sets the register of this name; none if there is none.
pub fn set(state: &mut State, name: &str, number: u32) -> Option<()> {
    let mut all = fields(state).into_iter();
    let field = all.find(|field| field.name.to_string() == name)?;
    *field.number = number;
    Some(())
}
