//! Cards: what the generated lists of letters reach, and cards told as text.

use compare::cards::generate::card;
use compare::cards::shortest::shortest;
use compare::cards::{answers, difference, plain, text, Card, Difference, Tally};
use compare::random::Random;
use ierbulosc::{card_room, Letter, LETTER_SIZE};
use plain_reader::{BYTE_REFUSED, LETTERS_REFUSED, PLACE_REFUSED, ROOM_REFUSED, WRITTEN};
use std::collections::BTreeMap;

fn generated(count: u64) -> impl Iterator<Item = Card> {
    (0..count).map(|seed| card(&mut Random::new(seed)))
}

/// A card's letters.
fn letters(card: &Card) -> Vec<Letter> {
    let letters = card.letters.chunks_exact(LETTER_SIZE);
    let letter = |bytes: &[u8]| Letter::from_bytes(bytes.try_into().unwrap());
    letters.map(letter).collect()
}

/// A card of these letters, with the room asked for.
fn of(letters: &[Letter]) -> Card {
    Card {
        letters: letters
            .iter()
            .flat_map(|letter| letter.to_bytes())
            .collect(),
        room: card_room(letters.len()),
        piece: 3,
    }
}

#[test]
fn no_difference() {
    let mut tally = Tally::default();
    for card in generated(2_000) {
        let found = difference(&card, &mut tally);
        assert_eq!(found, None, "{}", text::text(&card));
    }
    assert!(tally.letters > 1_000, "{tally:?}");
}

/// The bytes of one card, in pieces of every length.
#[test]
fn pieces_of_every_length() {
    let letters = [
        Letter::new(b'A', 20, 0),
        Letter::new(b'B', 28_440, 5_120),
        Letter::new(b'~', 28_420, 39_580),
    ];
    let whole = plain(&of(&letters)).written;
    assert_eq!(whole, 2 + 9 + 11 + 30);
    for piece in 1..=whole {
        let card = Card {
            piece,
            ..of(&letters)
        };
        assert_eq!(difference(&card, &mut Tally::default()), None, "{piece}");
    }
}

#[test]
fn every_answer_comes_often() {
    let mut numbers = BTreeMap::new();
    for card in generated(20_000) {
        *numbers.entry(plain(&card).number).or_insert(0) += 1;
    }
    let all: Vec<u8> = numbers.keys().copied().collect();
    let expected = [
        WRITTEN,
        LETTERS_REFUSED,
        BYTE_REFUSED,
        PLACE_REFUSED,
        ROOM_REFUSED,
    ];
    assert_eq!(all, expected);
    assert!(numbers.values().all(|&count| count > 500), "{numbers:?}");
}

/// A limit by name, and whether a card meets it.
type Limit = (&'static str, fn(&Card) -> bool);

/// Each limit is met from both sides by lists that have no other fault than
/// that, if one.
#[test]
fn every_limit_is_met() {
    let limits: [Limit; 18] = [
        ("a byte past a letter", |card| {
            card.letters.len() % LETTER_SIZE == 1 && plain(card).number == LETTERS_REFUSED
        }),
        ("a byte short of a letter", |card| {
            card.letters.len() % LETTER_SIZE == 4 && plain(card).number == LETTERS_REFUSED
        }),
        ("no letters", |card| card.letters.is_empty()),
        ("the longest letter", |card| {
            card.letters.len() == LETTER_SIZE && plain(card).written == card_room(1)
        }),
        ("byte 20h", |card| good(card, |one| one.byte() == 0x20)),
        ("byte 7Eh", |card| good(card, |one| one.byte() == 0x7E)),
        ("byte 1Fh", |card| bad(card, |one| one.byte() == 0x1F)),
        ("byte 7Fh", |card| bad(card, |one| one.byte() == 0x7F)),
        ("across 28,440", |card| {
            good(card, |one| one.across() == 28_440)
        }),
        ("across 28,460", |card| {
            bad(card, |one| one.across() == 28_460)
        }),
        ("down 39,580", |card| good(card, |one| one.down() == 39_580)),
        ("down 39,600", |card| bad(card, |one| one.down() == 39_600)),
        ("no multiple across", |card| {
            bad(card, |one| one.across() % 20 == 1 && one.across() < 28_440)
        }),
        ("no multiple down", |card| {
            bad(card, |one| one.down() % 20 == 1 && one.down() < 39_580)
        }),
        ("20 above the one before", |card| {
            let all = letters(card);
            let above = |two: &[Letter]| two[0].down() == two[1].down().saturating_add(20);
            plain(card).number == PLACE_REFUSED && all.windows(2).any(above)
        }),
        ("just the room", |card| {
            plain(card).number == WRITTEN && card.room == card_room(letters(card).len())
        }),
        ("a byte less", |card| {
            plain(card).number == ROOM_REFUSED && card.room + 1 == card_room(letters(card).len())
        }),
        ("255 steps at once", |card| {
            let all = letters(card);
            let whole = |two: &[Letter]| two[0].down().saturating_add(5_100) == two[1].down();
            plain(card).number == WRITTEN && all.windows(2).any(whole)
        }),
    ];
    let mut met = [0; 18];
    for card in generated(20_000) {
        for (count, (_, meets)) in met.iter_mut().zip(limits) {
            *count += u32::from(meets(&card));
        }
    }
    for (count, (name, _)) in met.into_iter().zip(limits) {
        assert!(count >= 5, "{name}: {count}");
    }
}

/// A card that is written, with such a letter.
fn good(card: &Card, such: impl Fn(&Letter) -> bool) -> bool {
    plain(card).number == WRITTEN && letters(card).iter().any(such)
}

/// A card that is refused for one such letter alone: without it, it is not.
fn bad(card: &Card, such: impl Fn(&Letter) -> bool) -> bool {
    let all = letters(card);
    let refused = matches!(plain(card).number, BYTE_REFUSED | PLACE_REFUSED);
    let others: Vec<Letter> = all
        .iter()
        .filter(|&letter| !such(letter))
        .copied()
        .collect();
    refused && others.len() + 1 == all.len() && plain(&of(&others)).number == WRITTEN
}

#[test]
fn text_and_back() {
    for card in generated(300) {
        assert_eq!(text::card(&text::text(&card)), Ok(card));
    }
    assert!(text::card("card 35\n").is_err());
    assert!(text::card("card 35 1\n4114000\n").is_err());
    assert!(!text::is_card("slot 1 2\n"));
}

#[test]
fn the_shortest_that_fails() {
    let letter = |byte, down| Letter::new(byte, 0, down);
    let card = of(&[letter(b'A', 0), letter(b'B', 20), letter(b'A', 40)]);
    let fails = |card: &Card| letters(card).iter().any(|one| one.byte() == b'B');
    let short = shortest(&card, &fails);
    assert_eq!(letters(&short), [letter(b'B', 20)]);
    assert_eq!(short.room, card_room(1));
}

/// What is told of a card whose writers differ.
#[test]
fn a_difference_in_words() {
    let mut both = answers(&of(&[Letter::new(b'A', 20, 0)]));
    assert_eq!(both.plain, both.proved);
    let line = "number 0, 11 bytes: 1b401b2400001b5c010041\n";
    assert_eq!(text::both(&both), format!("plain:  {line}proved: {line}"));
    both.touched = true;
    let told = text::difference(&Difference::Written(Box::new(both)));
    assert!(told.ends_with("is touched\n"), "{told}");
}
