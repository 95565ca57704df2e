//! Readings of the points where the words leave room.

use super::*;

#[test]
fn pitch_of_15_leaves_reduced() {
    assert_eq!(advance_after(b"\x0F\x1Bg\x1BP"), 216);
    assert_eq!(advance_after(b"\x0F\x1Bg"), 240);
    assert_eq!(at_300(b"\x1Bg\x0F\x1B\x0F"), [no(15, 2), no(15, 2)]);
}

#[test]
fn carriage_return_does_not_end_so() {
    assert_eq!(advance_after(b"\x0E\x0D"), 720);
    for end in [b"\x0A", b"\x0B", b"\x0C", b"\x14"] {
        assert_eq!(advance_after(&[b"\x0E", &end[..]].concat()), 360);
    }
    assert_eq!(advance_after(b"\x1BW1\x0E\x14"), 720);
    assert_eq!(advance_after(b"\x0E\x1BW0"), 360);
    assert_eq!(with_line_feed(b"\x0E\x0DA")[1], tx(b'A', 0, 50, 360));
}

#[test]
fn vertical_tab_with_an_empty_list() {
    assert_eq!(with_line_feed(b"\x1BB\x00\x0B"), [ln(50, 0)]);
    let records = at_300(b"\x1BB\x00A\x0BB");
    assert_eq!(records, [tx(b'A', 0, 0, 360), tx(b'B', 0, 0, 360)]);
    let records = at_300(b"\x1B3\x00\x1BB\x01\x00A\x0BB");
    let expected = [no(1, 3), tx(b'A', 0, 0, 360), tx(b'B', 0, 0, 360)];
    assert_eq!(records, expected);
    assert_eq!(at_300(b"\x0B"), [ln(50, 0)]);
    assert_eq!(at_300(b"\x1BB\x00\x1B@\x0B"), [ln(0, 255), ln(50, 0)]);
}

#[test]
fn vertical_tab_to_a_stop_or_the_next_page() {
    let records = at_300(b"\x1BB\x02\x05\x00A\x0B\x0B\x0BB");
    let feeds = [ln(100, 0), ln(250, 0), ln(0, 1), tx(b'B', 0, 0, 360)];
    assert_eq!(records[1..], feeds);
    let past_the_edge = at_300(b"\x1BB\x40\x00\x1BN\x02\x0B");
    assert_eq!(past_the_edge, [ln(0, 1)]);
}

#[test]
fn upper_control_codes_as_received() {
    assert_eq!(at_300(b"\x1BD\x00\x1B7\x89"), [no(0x89, 5)]);
    assert_eq!(at_300(b"\x1B7\x80\x1Bg\x8F"), [no(0x80, 1), no(0x8F, 2)]);
    assert_eq!(at_300(b"\x1B7\x1B\x8F"), [no(0x8F, 1)]);
    assert_eq!(at_300(b"\x1B7\x9BE\x8A"), [ln(50, 0)]);
    assert_eq!(at_300(b"\x8F"), [tx(0x8F, 0, 0, 360)]);
    assert_eq!(at_300(b"\x1B7\x1B6\x8F"), [tx(0x8F, 0, 0, 360)]);
}

#[test]
fn far_absolute_place_and_any_font() {
    assert_eq!(at_300(b"\x1B$\x30\x03"), [no(b'$', 3)]);
    assert_eq!(at_300(b"\x1B$\xE0\x01"), []);
    assert_eq!(at_300(b"\x1BkzA")[0].font, b'z');
    assert_eq!(at_300(b"\x1Bk\x30A")[0].font, 0x30);
}

#[test]
fn letter_too_wide_at_the_left_margin() {
    let records = at_300(b"\x1BQ\x01\x0EA\x14A");
    assert_eq!(records, [cl(), no(b'A', 4), tx(b'A', 0, 0, 360)]);
    let records = at_300(b"\x1BQ\x01A\x1BW1B");
    let expected = [cl(), tx(b'A', 0, 0, 360), ln(50, 0), no(b'B', 4)];
    assert_eq!(records, expected);
    let records = at_300(b"\x1BQ\x02A\x0EB");
    let expected = [tx(b'A', 0, 0, 360), ln(50, 0), tx(b'B', 0, 50, 360)];
    assert_eq!(records[1..], expected);
}

#[test]
fn lists_end_at_a_byte_not_above_the_one_before() {
    assert_eq!(
        at_300(b"\x1BD\x50\x51\x51A"),
        [no(0x51, 3), tx(65, 0, 0, 360)]
    );
    let mut input = b"\x1BD".to_vec();
    input.extend(1..=33);
    input.extend(b"\x00A");
    assert_eq!(at_300(&input), [no(33, 3), tx(65, 0, 0, 360)]);
    let mut input = b"\x1BB".to_vec();
    input.extend(1..=17);
    input.push(0);
    assert_eq!(at_300(&input), [no(17, 3)]);
    assert_eq!(at_300(b"\x1BB\x41\x42\x00"), [no(66, 3)]);
}

#[test]
fn refused_arguments() {
    assert_eq!(at_300(b"\x1BC\x00\x17"), [no(b'C', 2)]);
    assert_eq!(at_300(b"\x1BC\x00\x00"), [no(b'C', 2)]);
    assert_eq!(at_300(b"\x1BC\x00\x16"), [ln(0, 255)]);
    assert_eq!(at_300(b"\x1BC\x80A"), [no(b'C', 2), tx(65, 0, 0, 360)]);
    assert_eq!(at_300(b"\x1BC\x05"), [no(b'C', 3)]);
    assert_eq!(at_300(b"\x1BN\x00\x1BN\x80"), [no(b'N', 2); 2]);
    assert_eq!(at_300(b"\x1BN\x3C"), []);
    assert_eq!(at_300(b"\x1BN\x3D"), [no(b'N', 3)]);
    assert_eq!(at_300(b"\x1BR\x0E\x1BR\x40"), [no(b'R', 2)]);
    assert_eq!(at_300(b"\x1Bt0\x1Bq0"), [no(b't', 2), no(b'q', 2)]);
    assert_eq!(at_300(b"\x1Bp2\x1B-\x02"), [no(b'p', 2), no(b'-', 2)]);
    assert_eq!(
        at_300(b"\x1B\x1B\x1B\x0A\x00\x7F"),
        [27, 10, 0, 127].map(|b| no(b, 1))
    );
    assert_eq!(at_300(b"\x1B&\x1B:\x1B?"), [38, 58, 63].map(|b| no(b, 1)));
}

#[test]
fn feed_over_page_ends() {
    assert_eq!(
        at_300(b"\x1BC\x06\x1BA\x32\x0A\x1BJ\xFF")[1..],
        [ln(250, 0), ln(75, 2)]
    );
    assert_eq!(at_300(b"\x1BJ\x00"), [ln(0, 0)]);
    assert_eq!(at_300(b"A\x1BJ\x03A")[1..], [ln(5, 0), tx(65, 30, 5, 360)]);
}

#[test]
fn margins_stay_when_refused() {
    let records = at_300(b"\x1Bl\x05\x1BQ\x05A");
    assert_eq!(records, [cl(), no(b'Q', 3), tx(65, 150, 0, 360)]);
    let records = at_300(b"\x1Bl\x05\x1BQ\x06AA");
    let expected = [tx(65, 150, 0, 360), ln(50, 0), tx(65, 150, 50, 360)];
    assert_eq!(records[2..], expected);
    assert_eq!(
        at_300(b"\x08A\x08A"),
        [no(8, 3), tx(65, 0, 0, 360), tx(65, 0, 0, 360)]
    );
}

#[test]
fn styles() {
    let style = |input: &[u8]| at_300(&[input, b"A"].concat()).last().unwrap().style;
    assert_eq!(style(b"\x1B!\xFF"), 0b1100_0100_1111);
    assert_eq!(style(b"\x1BG\x1B4\x1B-1"), 0b1110);
    assert_eq!(style(b"\x1BS0\x1BS1"), 1 << 5);
    assert_eq!(style(b"\x1BS\x01\x1BS\x00"), 1 << 4);
    assert_eq!(style(b"\x1BS0\x1BT"), 0);
    assert_eq!(style(b"\x0E"), 1 << 6);
    assert_eq!(style(b"\x1Bw1\x1Bq\x03"), 0b11_1000_0000);
    assert_eq!(style(b"\x1Bt\x00\x1B%1"), 0b11 << 12);
    assert_eq!(style(b"\x1Bt\x00\x1Bt\x01"), 0);
    assert_eq!(style(b"\x0E\x1B!\x20\x0D"), 1 << 6);
    assert_eq!(style(b"\x0E\x1BW1\x1B!\x00"), 0);
}

#[test]
fn widths() {
    assert_eq!(advance_after(b"\x1BM"), 300);
    assert_eq!(advance_after(b"\x1BM\x0F"), 180);
    assert_eq!(advance_after(b"\x1B \x81\x1BW1"), 760);
    assert_eq!(advance_after(b"\x1Bg\x1Bp1"), 360);
    let records = at_300(b"\x1Bp1\x1B \x05\x0E\x1BD\x02\x00\x09A");
    assert_eq!((records[0].column, records[0].advance), (60, 920));
    assert_eq!(columns(&at_300(b"\x1Bx0A\x1B\\\xFF\xFFA")), [0, 28]);
    assert_eq!(columns(&at_300(b"\x1Bx0A\x1B\\\x02\x00A")), [0, 35]);
}

#[test]
fn images_at_the_right_margin() {
    let records = at_300(b"\x1BQ\x01\x1BK\x07\x00\x01\x02\x03\x04\x05\x06\x07A");
    assert_eq!(records[6], im(6, 25, 0, 60));
    assert_eq!(records[7..], [no(7, 4), ln(50, 0), tx(65, 0, 50, 360)]);
    assert_eq!(at_300(b"\x1BZ\x00\x00A"), [tx(65, 0, 0, 360)]);
    let second = at_300(b"\x1BY\x01\x00A\x1BZ\x01\x00B")[1];
    assert_eq!(second, off(-1_800, im(66, 3, 0, 15)));
}
