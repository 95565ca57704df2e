//! What may be let go of a list (include/escp.h): what stands under a slot stays
//! the same, then and when more is joined to it.

use ierbulosc::{slot, Answer, NEW_TOP, RECORD_SIZE};

/// Columns are from 0 to here.
const MOST: u16 = 5;

/// Made-up numbers, one after the other.
struct Numbers(u64);

impl Numbers {
    /// The next, below a limit.
    fn next(&mut self, limit: usize) -> usize {
        self.0 ^= self.0 << 13;
        self.0 ^= self.0 >> 7;
        self.0 ^= self.0 << 17;
        (self.0 >> 32) as usize % limit
    }
}

type Bytes = [u8; RECORD_SIZE];

/// A record of this mark, with one in each place that tells it from others.
fn record(mark: &[u8; 2], column: u8, byte: u8, row: u8) -> Bytes {
    let mut bytes = [0; RECORD_SIZE];
    bytes[..2].copy_from_slice(mark);
    (bytes[2], bytes[4], bytes[6]) = (column, row, byte);
    bytes
}

fn made_up(numbers: &mut Numbers, count: usize) -> Vec<Bytes> {
    let one = |at: usize, numbers: &mut Numbers| {
        let column = numbers.next(usize::from(MOST) + 1) as u8;
        match numbers.next(20) {
            0..=8 => record(b"TX", column, b'A', at as u8),
            9..=11 => record(b"LN", 0, 0, at as u8),
            12 => record(b"LN", 0, [1, NEW_TOP][numbers.next(2)], at as u8),
            13..=15 => record(b"CL", 0, 0, 0),
            16 | 17 => record(b"IM", column, 0xFF, at as u8),
            18 => record(b"NO", 0, 7, 0),
            _ => record(b"ZZ", column, 0, 0),
        }
    };
    (0..count).map(|at| one(at, numbers)).collect()
}

fn has_mark(record: &Bytes, mark: &[u8; 2]) -> bool {
    record.starts_with(mark)
}

fn is_feed(record: &Bytes) -> bool {
    has_mark(record, b"LN")
}

fn turns(record: &Bytes) -> bool {
    is_feed(record) && record[6] != 0
}

/// Where the records since the LN or CL before this place begin.
fn stretch(list: &[Bytes], at: usize) -> usize {
    let ends = |record: &Bytes| is_feed(record) || has_mark(record, b"CL");
    list[..at].iter().rposition(ends).map_or(0, |end| end + 1)
}

/// Whether a newer letter with the column of this one hides it, and an LN comes
/// after both, or after neither.
fn is_hidden(list: &[Bytes], at: usize) -> bool {
    let fed = |at: usize| list[at..].iter().any(is_feed);
    let hides = |newer: &usize| {
        has_mark(&list[*newer], b"TX") && list[*newer][2] == list[at][2] && fed(*newer) == fed(at)
    };
    (at + 1..list.len()).any(|newer| hides(&newer))
}

/// Lets go, by the rule that applies to the record at this place, if one does.
fn let_go(list: &mut Vec<Bytes>, at: usize) {
    let begin = stretch(list, at);
    let letters = |part: &[Bytes]| part.iter().any(|record| has_mark(record, b"TX"));
    match &list[at] {
        record if turns(record) => drop(list.drain(..=at)),
        record if has_mark(record, b"CL") => drop(list.drain(begin..=at)),
        record if is_feed(record) => {
            if !letters(&list[begin..at]) {
                list.remove(at);
            }
        }
        record if has_mark(record, b"TX") => {
            let voids = list.iter().any(|record| has_mark(record, b"CL"));
            if !voids && is_hidden(list, at) {
                list.remove(at);
            }
        }
        _ => drop(list.remove(at)),
    }
}

/// What stands from each column to each other.
fn standing(list: &[Bytes]) -> Vec<Vec<u8>> {
    let list = list.concat();
    let ranges = (0..=MOST).flat_map(|from| (from..=MOST).map(move |to| (from, to)));
    let asked = ranges.map(|(from, to)| slot(&list, from, to));
    let checked = asked.map(|(answer, part)| {
        assert_eq!(answer, Answer::Done);
        part.to_vec()
    });
    checked.collect()
}

#[test]
fn the_same_stands_there() {
    let mut numbers = Numbers(0x9E37_79B9_7F4A_7C15);
    let mut gone = 0;
    for _ in 0..20_000 {
        let (count, more) = (1 + numbers.next(25), numbers.next(6));
        let mut list = made_up(&mut numbers, count);
        let more = made_up(&mut numbers, more);
        let now = standing(&list);
        let then = standing(&[&list[..], &more].concat());
        for _ in 0..count {
            if !list.is_empty() {
                let at = numbers.next(list.len());
                let_go(&mut list, at);
            }
        }
        gone += count - list.len();
        assert_eq!(standing(&list), now, "{list:?}");
        let joined = [&list[..], &more].concat();
        assert_eq!(standing(&joined), then, "{list:?} and {more:?}");
    }
    assert!(gone > 100_000, "{gone}");
}
