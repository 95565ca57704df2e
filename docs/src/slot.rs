//! What stands in a range of columns now: the whole list of records is read
//! forward, as a page is printed.

use crate::records::RECORD_SIZE;
use std::ops::Range;

/// The question is answered: a letter is found, or there is none.
pub const ANSWERED: u8 = 0;
/// The length of the list is no multiple of the record size.
pub const LIST_REFUSED: u8 = 5;

/// The answer's number, and where in the list the last surviving TX of the
/// present page stands whose column lies from `from` to `to`, both included;
/// an empty part if there is none.
pub fn slot(records: &[u8], from: u16, to: u16) -> (u8, Range<usize>) {
    if records.len() % RECORD_SIZE != 0 {
        return (LIST_REFUSED, 0..0);
    }
    let letters = surviving(records).into_iter();
    let mut inside = letters.filter(|&at| (from..=to).contains(&column(&records[at..])));
    let part = match inside.next_back() {
        Some(at) => at..at + RECORD_SIZE,
        None => 0..0,
    };
    (ANSWERED, part)
}

/// Where the surviving TX of the present page stand, in order.
fn surviving(records: &[u8]) -> Vec<usize> {
    let mut letters = Vec::new();
    // How many of them a CL leaves: those before the last LN, CL or beginning.
    let mut kept = 0;
    for (number, record) in records.chunks_exact(RECORD_SIZE).enumerate() {
        match &record[..2] {
            b"TX" => letters.push(number * RECORD_SIZE),
            b"CL" => letters.truncate(kept),
            b"LN" => {
                if record[6] != 0 {
                    letters.clear();
                }
                kept = letters.len();
            }
            _ => {}
        }
    }
    letters
}

/// The dot column of a record.
fn column(record: &[u8]) -> u16 {
    u16::from_le_bytes([record[2], record[3]])
}
