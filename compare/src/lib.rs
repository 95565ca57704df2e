//! Holds the proved reader, through its C interface, against the plain one,
//! and that against the plain one in runs: generated inputs and calls,
//! arbitrary states, the reckoning of exact places, and a search for the
//! shortest input that tells them apart; the question what stands in a range
//! of columns, asked of generated lists of records; and cards, written from
//! generated letters and read back.

pub mod arbitrary;
pub mod bounds;
pub mod calls;
pub mod cards;
pub mod fields;
pub mod generate;
pub mod hold;
pub mod inputs;
pub mod random;
pub mod received;
pub mod reckoning;
pub mod record;
pub mod registers;
pub mod runs;
pub mod settings;
pub mod shortest;
pub mod shrink;
pub mod slots;
pub mod states;
pub mod tell;
pub mod text;

/// The width of the narrowest and of the widest paper, in units.
pub const NARROWEST: u32 = 7_200;
pub const WIDEST: u32 = 28_800;
