//! Writing a card, through the safe cover, and reading it back.

use ierbulosc::{
    card_room, records, write, Answer, Letter, Record, Settings, State, NEW_TOP, NOTHING, ROOM,
};

const FILL: u8 = 0xE5;

/// The bytes of a card, which are written with just the room asked for; what
/// is past them stays.
fn card(letters: &[Letter]) -> Vec<u8> {
    let mut out = vec![FILL; card_room(letters.len())];
    let (answer, card) = write(letters, &mut out);
    assert_eq!(answer, Answer::Done);
    let card = card.to_vec();
    assert!(out[card.len()..].iter().all(|&byte| byte == FILL));
    card
}

/// The answer to letters that are refused, with nothing written.
fn refusal(letters: &[Letter], room: usize) -> Answer {
    let mut out = vec![FILL; room];
    let (answer, card) = write(letters, &mut out);
    assert!(card.is_empty());
    assert!(out.iter().all(|&byte| byte == FILL));
    answer
}

/// The records of a card, read in pieces of so many bytes.
fn read(card: &[u8], resolution: u32, piece: usize) -> Vec<Record> {
    let (_, mut state) = State::start(&Settings {
        resolution,
        ..Settings::default()
    });
    let mut list = Vec::new();
    for piece in card.chunks(piece) {
        let mut out = vec![0; piece.len() * ROOM];
        let report = state.read(piece, usize::MAX, &mut out);
        assert_eq!(report.answer, Answer::Done);
        list.extend(records(&out[..report.written]));
    }
    assert_eq!(state.kind, NOTHING);
    list
}

/// The TX of a letter.
fn text(letter: Letter, dots_across: u32, dots_down: u32) -> Record {
    let dots = |units: u16, dots: u32| ((u32::from(units) * dots + 1_800) / 3_600) as u16;
    let column = dots(letter.across(), dots_across);
    let parts = i64::from(letter.across()) * i64::from(dots_across);
    Record::Tx {
        column,
        row: dots(letter.down(), dots_down),
        byte: letter.byte(),
        font: 0,
        style: 0,
        country: 0,
        advance: 360,
        rest: (parts - 3_600 * i64::from(column)) as i16,
    }
}

#[test]
fn it_begins_with_esc_at() {
    assert_eq!(card(&[]), b"\x1B@");
    assert_eq!(refusal(&[], 1), Answer::RoomRefused);
    assert_eq!(refusal(&[], 0), Answer::RoomRefused);
}

/// 1,979 steps of 20 down are seven times 255, and 194; 28,420 across is 473
/// times 60, and 40.
#[test]
fn the_longest_letter() {
    let bytes = card(&[Letter::new(b'~', 28_420, 39_580)]);
    assert_eq!(bytes.len(), card_room(1));
    let feeds = b"\x1BJ\xFF".repeat(7);
    let last = b"\x1BJ\xC2\x1B$\xD9\x01\x1B\\\x02\x00~";
    assert_eq!(bytes, [b"\x1B@", &feeds[..], last].concat());
}

#[test]
fn it_reads_back() {
    let letters = [
        Letter::new(b'A', 20, 0),
        Letter::new(b'B', 28_440, 0),
        Letter::new(b' ', 0, 20),
        Letter::new(b'C', 0, 5_100),
        Letter::new(b'D', 3_600, 5_120),
        Letter::new(b'D', 3_600, 5_120),
        Letter::new(b'~', 28_420, 39_580),
        Letter::new(b'!', 40, 39_580),
    ];
    let card = card(&letters);
    for (across, down) in [(300, 300), (203, 200)] {
        let due = letters.map(|letter| text(letter, across, down));
        for piece in [1, 2, 3, 5, card.len()] {
            let list = read(&card, across, piece);
            let top = Record::Ln {
                row: 0,
                pages: NEW_TOP,
            };
            assert_eq!(list[0], top);
            let fed = |record: &Record| matches!(record, Record::Ln { pages: 0, .. });
            let rest = list[1..].iter().filter(|record| !fed(record));
            assert!(rest.eq(&due), "{across} dots, pieces of {piece}");
        }
    }
}

#[test]
fn refusals_at_each_limit() {
    let room = card_room(2);
    let one = |byte, across, down| refusal(&[Letter::new(byte, across, down)], room);
    for byte in [0, 0x1B, 0x1F, 0x7F, 0x80, 0xFF] {
        assert_eq!(one(byte, 0, 0), Answer::ByteRefused);
        assert_eq!(one(byte, 1, 0), Answer::ByteRefused);
    }
    for (across, down) in [(1, 0), (19, 0), (28_460, 0), (28_441, 0), (65_535, 0)] {
        assert_eq!(
            one(b'A', across, down),
            Answer::PlaceRefused,
            "{across} {down}"
        );
    }
    for (across, down) in [(0, 1), (0, 39_600), (0, 39_581), (0, 65_535)] {
        assert_eq!(
            one(b'A', across, down),
            Answer::PlaceRefused,
            "{across} {down}"
        );
    }
    let [above, below] = [0, 20].map(|down| Letter::new(b'A', 0, down));
    assert_eq!(refusal(&[below, above], room), Answer::PlaceRefused);
    card(&[above, below]);
    card(&[below, below]);
}

#[test]
fn the_first_bad_letter_decides_and_the_room_is_last() {
    let [good, bad_byte, bad_place] =
        [(b'A', 0), (0x7F, 0), (b'A', 1)].map(|(byte, across)| Letter::new(byte, across, 0));
    assert_eq!(
        refusal(&[good, bad_place, bad_byte], 0),
        Answer::PlaceRefused
    );
    assert_eq!(
        refusal(&[good, bad_byte, bad_place], 0),
        Answer::ByteRefused
    );
    assert_eq!(
        refusal(&[good, good], card_room(2) - 1),
        Answer::RoomRefused
    );
    assert_eq!(
        refusal(&[good, bad_byte], card_room(2) - 1),
        Answer::ByteRefused
    );
}
