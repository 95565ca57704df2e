//! The ten cases checked by hand, and the errors that read well.

use super::*;
use crate::state::{dot_parts, rounded};

#[test]
fn case_1_records_byte_for_byte() {
    let (_, mut state) = start(300, false);
    let mut out = [0xEE; 2 * ROOM_FOR_A_BYTE];
    let report = read(&mut state, b"\x41\x0A", 9, &mut out);
    assert_eq!((report.answer, report.read), (0, 2));
    let (written, rest) = out.split_at(report.written);
    let hex: String = written.iter().map(|byte| format!("{byte:02x}")).collect();
    let expected = "545800000000410000000000680100004c4e0000320000000000000000000000";
    assert_eq!(hex, expected);
    assert!(rest.iter().all(|&byte| byte == 0xEE));
}

#[test]
fn case_2_tabs() {
    let records = at_300(b"\x1BD\x04\x08\x0C\x00\x09A\x09B\x09C\x09");
    assert_eq!(columns(&records), [120, 240, 360]);
    assert_eq!(records[3..], [no(9, 5)]);
}

#[test]
fn case_3_at_203() {
    let records = read_all(&mut start(203, false).1, b"AAA");
    assert_eq!(columns(&records), [0, 20, 41]);
    let rests: Vec<i16> = records.iter().map(|record| record.rest).collect();
    assert_eq!(rests, [0, 1_080, -1_440]);
}

/// Dot and rest together are the length, whatever it is, and the rest is less
/// than half a dot, or half a dot below.
#[test]
fn dot_and_rest_of_every_place() {
    for per_inch in [203, 300] {
        for units in 0..=28_800 {
            let place = rounded(dot_parts(units, per_inch));
            let (dot, rest) = (i64::from(place.dot), i64::from(place.rest));
            assert_eq!(3_600 * dot + rest, i64::from(units * per_inch));
            assert!((-1_800..1_800).contains(&rest));
        }
    }
}

#[test]
fn case_4_image() {
    let records = at_300(b"\x1BL\x02\x00\xAA\x55");
    let second = off(-1_800, im(0x55, 3, 0, 30));
    assert_eq!(records, [im(0xAA, 0, 0, 30), second]);
}

#[test]
fn case_5_eighty_letters() {
    let records = at_300(&[b'A'; 81]);
    assert_eq!(records.len(), 82);
    assert_eq!(records[79], tx(b'A', 2370, 0, 360));
    assert_eq!(records[80..], [ln(50, 0), tx(b'A', 0, 50, 360)]);
}

#[test]
fn case_6_line_amount() {
    assert_eq!(at_300(b"\x1BA\x55\x0A"), [ln(425, 0)]);
    assert_eq!(at_300(b"\x1BA\x56\x0A"), [no(b'A', 2), ln(50, 0)]);
}

#[test]
fn case_7_page() {
    let mut feeds = vec![10; 66];
    let records = at_300(&feeds);
    assert_eq!(records[64..], [ln(3250, 0), ln(0, 1)]);
    feeds.truncate(65);
    feeds.extend(b"\x1BJ\x3C");
    assert_eq!(at_300(&feeds)[65], ln(50, 1));
}

#[test]
fn case_8_left_margin() {
    assert_eq!(at_300(b"\x1Bl\x4F"), [cl()]);
    assert_eq!(at_300(b"\x1Bl\x50"), [no(b'l', 3)]);
}

#[test]
fn case_9_relative_move() {
    assert_eq!(at_300(b"\x1B\\\xFF\xFF"), [no(b'\\', 3)]);
    assert_eq!(columns(&at_300(b"A\x1B\\\xFF\xFFA")), [0, 28]);
}

#[test]
fn case_10_widths() {
    assert_eq!(advance_after(b"\x1B!\x25"), 360);
    assert_eq!(advance_after(b"\x1Bp\x01\x0F"), 180);
}

#[test]
fn column_n_is_not_n_less_one() {
    let (_, mut state) = start(300, false);
    read_all(&mut state, b"\x1BD\x04\x00\x09");
    assert_eq!(state.across, 1440);
}

#[test]
fn widths_are_not_rounded_before_summing() {
    let records = read_all(&mut start(203, false).1, &[b'A'; 80]);
    assert_eq!(records[79].column, 1604);
}

#[test]
fn stops_move_with_the_present_width() {
    let records = at_300(b"\x1BD\x04\x00\x1BM\x09A");
    assert_eq!(columns(&records), [100]);
}

#[test]
fn escape_inside_a_list_or_an_image_is_data() {
    let records = at_300(b"\x1BE\x1BD\x1B\x40\x00\x09A");
    let bold = Seen {
        style: 1,
        ..tx(b'A', 27 * 30, 0, 360)
    };
    assert_eq!(records, [bold]);
    let records = at_300(b"\x1BK\x02\x00\x1B\x40");
    assert_eq!(records, [im(0x1B, 0, 0, 60), im(0x40, 5, 0, 60)]);
    assert_eq!(at_300(b"\x1BD\x1E\x1B\x40"), [tx(b'@', 0, 0, 360)]);
}
