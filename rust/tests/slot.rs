//! What stands under a slot, through the safe cover.

use ierbulosc::{slot, Answer, Settings, State, RECORD_SIZE, ROOM};

/// The records of an input from power-on at 300 dots, where a letter of 10 cpi
/// is 30 dots wide.
fn read(input: &[u8]) -> Vec<u8> {
    let (_, mut state) = State::start(&Settings::default());
    let mut out = vec![0; (input.len() + 1) * ROOM];
    let report = state.read(input, usize::MAX, &mut out);
    assert_eq!((report.answer, report.read), (Answer::Done, input.len()));
    out.truncate(report.written);
    out
}

/// The number of the record that stands there, which is that part of the list
/// and no copy; none if the part is empty.
fn place(list: &[u8], from: u16, to: u16) -> Option<usize> {
    let (answer, part) = slot(list, from, to);
    assert_eq!(answer, Answer::Done);
    if part.is_empty() {
        return None;
    }
    let offset = part.as_ptr() as usize - list.as_ptr() as usize;
    let there = &list[offset..][..RECORD_SIZE];
    assert_eq!(part.as_ptr_range(), there.as_ptr_range());
    Some(offset / RECORD_SIZE)
}

/// The letter that stands there in the records of an input.
fn letter(input: &[u8], from: u16, to: u16) -> Option<char> {
    let list = read(input);
    let at = place(&list, from, to)?;
    Some(char::from(list[at * RECORD_SIZE + 6]))
}

#[test]
fn the_newest_from_one_column_to_the_other() {
    let list = read(b"ABC");
    assert_eq!(place(&list, 0, u16::MAX), Some(2));
    assert_eq!(place(&list, 30, 30), Some(1));
    assert_eq!(place(&list, 29, 59), Some(1));
    assert_eq!(place(&list, 31, 59), None);
    assert_eq!(place(&list, 0, 29), Some(0));
    assert_eq!(letter(b"ABC\rD\nE", 0, 29), Some('E'));
    assert_eq!(letter(b"ABC\rD\nE", 0, 59), Some('E'));
    assert_eq!(letter(b"ABC\rD\nE", 30, 59), Some('B'));
}

#[test]
fn the_newest_in_the_list_not_the_rightmost() {
    assert_eq!(letter(b"ABC\rD", 0, 89), Some('D'));
}

#[test]
fn a_cl_voids_its_line() {
    assert_eq!(letter(b"A\x1Bl\x00", 0, 29), None);
    assert_eq!(letter(b"A\x1BQ\x50B", 0, 29), Some('B'));
    assert_eq!(letter(b"A\x1Bl\x00B\x1Bl\x00", 0, 29), None);
    assert_eq!(letter(b"A\nB\x1Bl\x00", 0, 29), Some('A'));
    assert_eq!(letter(b"A\n\x1Bl\x00\x1Bl\x00", 0, 29), Some('A'));
}

/// A feed of no units is an LN all the same.
#[test]
fn an_ln_of_0_shields() {
    assert_eq!(letter(b"A\x1BJ\x00\x1Bl\x00", 0, 29), Some('A'));
    assert_eq!(letter(b"A\x1BJ\x00\rB\x1Bl\x00", 0, 29), Some('A'));
}

#[test]
fn the_page_turned_holds_nothing() {
    assert_eq!(letter(b"A\x0C", 0, 29), None);
    assert_eq!(letter(b"A\x1B@", 0, 29), None);
    assert_eq!(letter(b"A\x0C\x1Bl\x00", 0, 29), None);
    assert_eq!(letter(b"A\x0CB", 0, 29), Some('B'));
    assert_eq!(letter(b"AC\x0CB", 30, 59), None);
}

#[test]
fn nothing_from_a_column_to_one_before_it() {
    let list = read(b"AB");
    assert_eq!(place(&list, 30, 29), None);
    assert_eq!(place(&list, u16::MAX, 0), None);
    assert_eq!(slot(&[], 0, u16::MAX), (Answer::Done, &[][..]));
}

#[test]
fn a_length_is_refused_before_all_else() {
    let list = read(b"AB");
    for length in (1..list.len()).filter(|length| length % RECORD_SIZE > 0) {
        for (from, to) in [(0, u16::MAX), (1, 0)] {
            let (answer, part) = slot(&list[..length], from, to);
            assert_eq!((answer, part), (Answer::LengthRefused, &[][..]), "{length}");
        }
    }
}

#[test]
fn other_marks_count_for_nothing() {
    let letter = read(b"A");
    let clear = read(b"\x1Bl\x00");
    for mark in [b"IM", b"NO", b"XT", b"TL", b"lN", b"CX", b"\0\0"] {
        let mut other = [0xFF; RECORD_SIZE];
        other[..2].copy_from_slice(mark);
        let list = [&letter[..], &other].concat();
        assert_eq!(place(&list, 0, u16::MAX), Some(0), "{mark:?}");
        let list = [&letter[..], &other, &clear].concat();
        assert_eq!(place(&list, 0, u16::MAX), None, "{mark:?}");
    }
}

#[test]
fn records_of_several_starts_are_one_list() {
    let of = |first: &[u8], second: &[u8]| [read(first), read(second)].concat();
    assert_eq!(place(&of(b"A", b""), 0, 29), Some(0));
    assert_eq!(place(&of(b"A", b"\nB"), 30, 59), None);
    assert_eq!(place(&of(b"A", b"\n"), 0, 29), Some(0));
    assert_eq!(place(&of(b"A", b"\x1Bl\x00"), 0, 29), None);
}
