//! The three readers, and what they are measured on.

use compare::inputs::{input, NAMES};
use compare::WIDEST;
use ierbulosc::{Settings, State};

#[derive(Clone, Copy, PartialEq, Eq, Debug)]
pub enum Reader {
    Proved,
    /// Byte by byte.
    Plain,
    /// The plain rules in runs.
    Runs,
}

pub const READERS: [Reader; 3] = [Reader::Proved, Reader::Plain, Reader::Runs];

impl Reader {
    pub fn name(self) -> &'static str {
        match self {
            Reader::Proved => "proved",
            Reader::Plain => "plain",
            Reader::Runs => "runs",
        }
    }

    pub fn named(name: &str) -> Option<Reader> {
        READERS.into_iter().find(|reader| reader.name() == name)
    }
}

pub const RESOLUTIONS: [u32; 2] = [300, 203];
pub const PIECES: [usize; 3] = [4_096, 16, 1];

/// An input at a resolution, in pieces of so many bytes, each a reading call.
#[derive(Clone, Copy, PartialEq, Eq, Debug)]
pub struct Subject {
    pub input: &'static str,
    pub dots: u32,
    pub piece: usize,
}

/// All that is measured, in the order of the tables.
pub fn subjects() -> Vec<Subject> {
    let mut all = Vec::new();
    for piece in PIECES {
        for dots in RESOLUTIONS {
            all.extend(NAMES.map(|input| Subject { input, dots, piece }));
        }
    }
    all
}

impl Subject {
    /// The bytes of the input, at least so many.
    pub fn bytes(&self, length: usize) -> Vec<u8> {
        input(self.input, length).unwrap_or_default()
    }

    /// An output long enough for a piece.
    pub fn room(&self) -> Vec<u8> {
        vec![0; self.piece * ierbulosc::ROOM]
    }

    /// Reads all of the input in pieces; passes on the records of each.
    #[inline(always)]
    pub fn read(
        &self,
        reader: Reader,
        input: &[u8],
        out: &mut [u8],
        mut records: impl FnMut(&[u8]),
    ) {
        match reader {
            Reader::Proved => {
                let (_, mut state) = State::start(&Settings {
                    resolution: self.dots,
                    ..Settings::default()
                });
                for piece in input.chunks(self.piece) {
                    let report = state.read(piece, usize::MAX, out);
                    records(&out[..report.written]);
                }
            }
            Reader::Plain => {
                let (_, mut state) = plain_reader::start(self.dots, false, WIDEST);
                for piece in input.chunks(self.piece) {
                    let report = plain_reader::read(&mut state, piece, usize::MAX, out);
                    records(&out[..report.written]);
                }
            }
            Reader::Runs => {
                let (_, mut state) = plain_reader::start(self.dots, false, WIDEST);
                for piece in input.chunks(self.piece) {
                    let report = plain_reader::read_in_runs(&mut state, piece, usize::MAX, out);
                    records(&out[..report.written]);
                }
            }
        }
    }
}
