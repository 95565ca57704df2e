//! The slots of generated cards: each answer is the word that was printed there,
//! or is marked. What was printed where is known from the generator, which
//! reckons places by itself, and not from the library.
//!
//! A longer run: `CARDS=1000000 SEED=7 cargo test --release --offline -p ierbulosc
//! --bin card generated -- --nocapture`.

use crate::options::{choice, Choice, Named, Slots};
use crate::reader::{Care, Reader};
use crate::slots;
use ierbulosc::Settings;
use std::env;
use std::ops::RangeInclusive;

/// Numbers that look as if by chance (xorshift).
struct Chance(u64);

impl Chance {
    fn below(&mut self, bound: u32) -> u32 {
        self.0 ^= self.0 << 13;
        self.0 ^= self.0 >> 7;
        self.0 ^= self.0 << 17;
        (((self.0 >> 32) * u64::from(bound)) >> 32) as u32
    }

    /// True once in so many times.
    fn once_in(&mut self, times: u32) -> bool {
        self.below(times) == 0
    }

    fn one_of<T: Copy>(&mut self, all: &[T]) -> T {
        all[self.below(all.len() as u32) as usize]
    }
}

/// Letters less than so many units apart touch: it is half the width of the
/// narrowest.
const GAP: u32 = 90;

/// A letter on the paper: its row, place and end in units, the text that it is of.
struct Printed {
    row: u32,
    place: u32,
    end: u32,
    blank: bool,
    text: usize,
}

/// A card as its bytes are written: places are reckoned as the paper's rules say.
struct Writer {
    bytes: Vec<u8>,
    dots: u32,
    left: u32,
    right: u32,
    across: u32,
    row: u32,
    feed: u32,
    stops: Vec<u32>,
    pitch: u32,
    reduced: bool,
    proportional: bool,
    spacing: u32,
    wide: bool,
    letters: Vec<Printed>,
    /// As many letters are there for good.
    fixed: usize,
    /// The texts, each with the number of the tab stop that it was printed at.
    texts: Vec<(String, Option<usize>)>,
    /// The stop that a tab led to last, and its place.
    stop: Option<(usize, u32)>,
}

impl Writer {
    fn new(dots: u32, width: u32) -> Writer {
        Writer {
            bytes: Vec::new(),
            dots,
            left: 0,
            right: width,
            across: 0,
            row: 0,
            feed: 600,
            stops: (1..=9).map(|stop| 8 * stop).collect(),
            pitch: 10,
            reduced: false,
            proportional: false,
            spacing: 0,
            wide: false,
            letters: Vec::new(),
            fixed: 0,
            texts: Vec::new(),
            stop: None,
        }
    }

    fn advance(&self) -> u32 {
        let base = match (self.pitch, self.reduced) {
            (_, false) if self.proportional => 360,
            (_, true) if self.proportional => 180,
            (10, false) => 360,
            (10, true) => 216,
            (12, false) => 300,
            (12, true) => 180,
            _ => 240,
        };
        (base + 20 * self.spacing) * if self.wide { 2 } else { 1 }
    }

    /// The width of the columns of stops and margins.
    fn column(&self) -> u32 {
        if self.proportional {
            360
        } else {
            self.advance()
        }
    }

    /// Chooses pitch, reduced, proportional, spacing and double width.
    fn choose(&mut self, chance: &mut Chance) {
        self.pitch = chance.one_of(&[10, 10, 12, 12, 15]);
        self.proportional = chance.once_in(6);
        self.reduced = self.pitch != 15 && chance.once_in(4);
        self.spacing = if chance.once_in(5) {
            chance.below(6)
        } else {
            0
        };
        self.wide = chance.once_in(8);
        let pitch = match self.pitch {
            10 => b'P',
            12 => b'M',
            _ => b'g',
        };
        self.bytes.extend([0x12, 0x1B, pitch]);
        self.bytes.extend([0x1B, b'p', u8::from(self.proportional)]);
        self.bytes.extend(self.reduced.then_some(0x0F));
        self.bytes.extend([0x1B, b' ', self.spacing as u8]);
        self.bytes.extend([0x1B, b'W', u8::from(self.wide)]);
    }

    /// ESC D, of stops that are all on the paper.
    fn set_stops(&mut self, stops: Vec<u32>) {
        self.bytes.extend([0x1B, b'D']);
        self.bytes.extend(stops.iter().map(|&stop| stop as u8));
        self.bytes.push(0);
        self.stops = stops;
    }

    /// ESC l, which voids what came since the last feed.
    fn set_left(&mut self, columns: u32) {
        self.bytes.extend([0x1B, b'l', columns as u8]);
        let left = columns * self.column();
        if left < self.right {
            self.left = left;
            self.across = left;
            self.letters.truncate(self.fixed);
        }
    }

    fn tab(&mut self) {
        self.bytes.push(0x09);
        let (left, width, across) = (self.left, self.column(), self.across);
        let places = self.stops.iter().map(|stop| left + stop * width);
        match places.enumerate().find(|(_, place)| *place > across) {
            Some((stop, place)) if place <= self.right => {
                (self.across, self.stop) = (place, Some((stop, place)));
            }
            _ => {}
        }
    }

    /// ESC $, in sixtieths of an inch from the left margin.
    fn go(&mut self, sixtieths: u32) {
        let [low, high] = (sixtieths as u16).to_le_bytes();
        self.bytes.extend([0x1B, b'$', low, high]);
        if self.left + 60 * sixtieths <= self.right {
            self.across = self.left + 60 * sixtieths;
        }
    }

    fn line(&mut self) {
        self.bytes.extend(b"\r\n");
        self.next_row();
    }

    fn next_row(&mut self) {
        self.across = self.left;
        self.row += self.feed;
        self.fixed = self.letters.len();
    }

    /// Prints letters: another text, unless they touch the last letter, as where
    /// a tab found no stop, or a single blank behind it.
    fn print(&mut self, text: &str) {
        let touches =
            |last: &Printed, place: u32| last.row == self.row && last.end.abs_diff(place) < GAP;
        let touching = match &self.letters[..] {
            [.., before, last] if last.blank => {
                !before.blank && touches(last, self.across) && touches(before, last.place)
            }
            [.., last] if !last.blank => touches(last, self.across),
            _ => false,
        };
        let fits = self.across + self.advance() <= self.right;
        match self.texts.last_mut() {
            Some((last, _)) if touching && fits => *last += text,
            _ => {
                let stop = self.stop.filter(|(_, place)| *place == self.across);
                self.texts.push((text.into(), stop.map(|(stop, _)| stop)));
            }
        }
        self.bytes.extend(text.bytes());
        for sign in text.bytes() {
            if self.across + self.advance() > self.right {
                self.next_row();
            }
            self.letters.push(Printed {
                row: self.row,
                place: self.across,
                end: self.across + self.advance(),
                blank: sign == b' ',
                text: self.texts.len() - 1,
            });
            self.across += self.advance();
        }
    }

    fn dot(&self, units: u32) -> u32 {
        (units * self.dots + 1_800) / 3_600
    }

    /// The places of the stops that a letter can be printed at.
    fn stop_places(&self) -> Vec<u32> {
        let places = self
            .stops
            .iter()
            .map(|stop| self.left + stop * self.column());
        places.filter(|&place| place < self.right).collect()
    }

    /// What stands from one place to another: none if it is no one text that
    /// begins there and is whole. Both may be so many dots to the left.
    fn truth(&self, from: u32, to: u32, slack: u32) -> Option<&str> {
        let columns = self.dot(from).saturating_sub(slack)..self.dot(to) - slack;
        let within = |letter: &&Printed| columns.contains(&self.dot(letter.place));
        let Some(newest) = self.letters.iter().rfind(within) else {
            return Some("(nothing)");
        };
        let rows = self.rows(newest.row);
        let inked = |letter: &&Printed| rows.contains(&letter.row) && !letter.blank;
        let mut there = self.letters.iter().filter(within).filter(inked);
        let Some(first) = there.next() else {
            return Some("(nothing)");
        };
        let text = first.text;
        let mut own = self.letters.iter().filter(|letter| letter.text == text);
        let whole = own.clone().count() == self.texts[text].0.len();
        let at_place = self.dot(first.place) <= columns.start + 2 * slack;
        let word = self.texts[text].0.trim_end();
        let alone = there.all(|letter| self.texts[letter.text].0.trim_end() == word);
        let inside = own.all(|letter| letter.blank || inked(&letter) && within(&letter));
        (whole && at_place && alone && inside).then_some(word)
    }

    /// Whether a text that stands now was printed at the stop of this number, or by
    /// no tab.
    fn is_of_stop(&self, answer: &str, stop: usize) -> bool {
        let texts = self.letters.iter().map(|letter| &self.texts[letter.text]);
        let mut such = texts.filter(|(text, _)| text.trim_end() == answer);
        answer == "(nothing)" || such.any(|(_, at)| at.is_none_or(|at| at == stop))
    }

    /// The rows that overlap by half a letter or more, with this one, each the one
    /// below it.
    fn rows(&self, row: u32) -> RangeInclusive<u32> {
        let (mut first, mut last) = (row, row);
        for letter in &self.letters {
            if letter.row > last && letter.row < last + 240 {
                last = letter.row;
            }
        }
        for letter in self.letters.iter().rev() {
            if letter.row < first && letter.row + 240 > first {
                first = letter.row;
            }
        }
        first..=last
    }
}

/// How the words of a card come to their places.
#[derive(Clone, Copy, PartialEq, Eq)]
enum Way {
    /// By tab stops that it sets.
    Stops,
    /// By those of power-on.
    PowerOn,
    /// By ESC $.
    Places,
    /// By blanks.
    Blanks,
}

/// A card, with what is known of it.
struct Card {
    writer: Writer,
    width: u32,
    /// The places of its slots.
    slots: Vec<u32>,
    way: Way,
    /// Whether the slots stood still while it was printed.
    still: bool,
    /// Whether nothing is to be said of a slot: each word has room.
    plain: bool,
    /// The most letters of a word.
    most: u32,
}

const WORDS: [&str; 12] = [
    "HELD",
    "RELEASED",
    "LOCKED",
    "FREE",
    "OPEN",
    "SHUT",
    "NOT FREE",
    "OK",
    "INHIBITED",
    "DOOR SHUT",
    "NOT RELEASED",
    "UNRELEASED",
];

/// A word that no other slot of the card has; it is of at most so many letters.
fn word(chance: &mut Chance, number: usize, most: u32) -> String {
    let mut word = if chance.once_in(3) {
        chance.one_of(&WORDS).to_string()
    } else {
        let length = 1 + chance.below(8);
        let letter = |_| (b'A' + chance.below(26) as u8) as char;
        (0..length).map(letter).collect()
    };
    word += &number.to_string();
    let length = word.len();
    if length > most as usize {
        word.replace_range(..length - most as usize, "");
    }
    word.trim_start().to_string()
}

/// A card.
fn card(chance: &mut Chance) -> Card {
    let width = match chance.below(8) {
        0 => 14_400 + 60 * chance.below(200),
        _ => 28_800,
    };
    let mut writer = Writer::new(chance.one_of(&[300, 203]), width);
    if chance.once_in(4) {
        writer.bytes.extend(b"\x1Bia\x00");
    }
    writer.choose(chance);
    let columns = 1 + chance.below(12);
    if chance.once_in(3) && columns * writer.column() + 7_200 < width {
        writer.set_left(columns);
    }
    let mut card = Card {
        writer,
        width,
        slots: Vec::new(),
        way: Way::Stops,
        still: true,
        plain: chance.once_in(3),
        most: 14,
    };
    card.lay_out(chance);
    card.fill(chance);
    card
}

impl Card {
    /// Chooses where the slots are, and how words come there.
    fn lay_out(&mut self, chance: &mut Chance) {
        let writer = &mut self.writer;
        let column = writer.column();
        let (mut first, mut step) = (
            1 + chance.below(14),
            chance.one_of(&[4, 5, 8, 9, 10, 12, 20]),
        );
        if self.plain {
            (first, step) = (10, 10 + chance.below(3));
            self.most = (step * column / writer.advance()).saturating_sub(3);
            self.plain = self.most > 2;
        } else {
            let ways = [
                Way::Stops,
                Way::Stops,
                Way::PowerOn,
                Way::Places,
                Way::Blanks,
            ];
            self.way = chance.one_of(&ways);
        }
        let room = (self.width - writer.left) / column;
        let room = room.saturating_sub(if self.plain { step } else { 0 });
        let stops = (0..7).map(|slot| first + slot * step);
        let stops: Vec<u32> = stops.filter(|&stop| stop < room).collect();
        let place = |stop: &u32| writer.left + stop * column;
        self.slots = stops.iter().map(place).collect();
        match self.way {
            Way::Stops => writer.set_stops(stops),
            Way::PowerOn => self.slots = writer.stop_places(),
            Way::Places => {
                let left = writer.left;
                let sixtieth = |place: &u32| left + (place - left) / 60 * 60;
                self.slots = self.slots.iter().map(sixtieth).collect();
            }
            Way::Blanks => {}
        }
    }

    /// Prints lines of state.
    fn fill(&mut self, chance: &mut Chance) {
        if !self.plain && chance.once_in(5) {
            self.writer.feed = chance.one_of(&[0, 100, 200, 300, 480]);
            let feed = (self.writer.feed / 20) as u8;
            self.writer.bytes.extend([0x1B, b'3', feed]);
        }
        let mut number = 0;
        for line in 0..1 + chance.below(3) {
            self.label(chance);
            let partly = line > 0 && chance.once_in(2);
            for slot in 0..self.slots.len() {
                number += 1;
                let said = !partly || chance.once_in(2);
                let word = word(chance, number, if said { self.most } else { 0 });
                self.say(chance, slot, &word);
            }
            let columns = self.writer.left / self.writer.column();
            let same = columns * self.writer.column() == self.writer.left;
            if line > 0 && same && chance.once_in(5) {
                self.writer.set_left(columns);
                continue;
            }
            if !self.plain {
                self.strike(chance);
            }
            self.writer.line();
            if !self.plain {
                self.move_slots(chance);
            }
        }
    }

    /// Now and then another word over the line.
    fn strike(&mut self, chance: &mut Chance) {
        if chance.once_in(12) && !self.slots.is_empty() {
            self.writer.bytes.push(b'\r');
            self.writer.across = self.writer.left;
            let slot = chance.below(self.slots.len() as u32) as usize;
            for slot in 0..=slot {
                self.say(chance, slot, "");
            }
            self.writer.print("OVER");
        }
    }

    /// Words before the slots, now and then up to the first of them.
    fn label(&mut self, chance: &mut Chance) {
        let before = self
            .slots
            .first()
            .map_or(0, |place| place - self.writer.left);
        let room = before / self.writer.advance();
        let most = if self.plain {
            room.saturating_sub(3)
        } else {
            room + chance.below(3)
        };
        let label = "STATE OF GATES";
        let label = label[..label.len().min(most as usize)].trim_end();
        if !label.is_empty() && !chance.once_in(3) {
            self.writer.print(label);
        }
    }

    /// Goes to a slot, and prints a word there.
    fn say(&mut self, chance: &mut Chance, slot: usize, word: &str) {
        let place = self.slots[slot];
        let writer = &mut self.writer;
        match self.way {
            Way::Stops | Way::PowerOn => writer.tab(),
            Way::Places => writer.go((place - writer.left.min(place)) / 60),
            Way::Blanks => {
                let blanks = place.saturating_sub(writer.across) / writer.advance();
                if blanks > 0 {
                    writer.print(&" ".repeat(blanks as usize));
                }
            }
        }
        if !self.plain && chance.once_in(40) {
            // A few units beside it.
            let steps = 1 + chance.below(30);
            if writer.across + 20 * steps <= writer.right {
                writer.bytes.extend([0x1B, b'\\', steps as u8, 0]);
                writer.across += 20 * steps;
            }
        }
        if !word.is_empty() {
            writer.print(word);
        }
    }

    /// Now and then another pitch, another margin or other stops.
    fn move_slots(&mut self, chance: &mut Chance) {
        let what = chance.below(20);
        self.still &= what > 3;
        let column = self.writer.column();
        match what {
            0 | 1 => self.writer.choose(chance),
            2 => {
                let columns = chance.below(8);
                if columns * column + 7_200 < self.width {
                    self.writer.set_left(columns);
                }
            }
            3 => {
                let first = 1 + chance.below(8);
                let room = (self.width - self.writer.left) / column;
                let stops = (0..6).map(|stop| first + 9 * stop);
                self.writer
                    .set_stops(stops.filter(|&stop| stop < room).collect());
            }
            _ => {}
        }
    }

    /// The places of the card's own slots, where those named are known to be others:
    /// not all at its stops, or in columns of another pitch.
    fn own(&self, asked: &Slots, places: &[u32]) -> Option<&[u32]> {
        let writer = &self.writer;
        let is_own = |place: &u32| {
            let near = |own: &u32| writer.dot(*own).abs_diff(writer.dot(*place)) <= 1;
            self.slots.iter().any(near)
        };
        let mut within = places.iter().filter(|&&place| place < writer.right);
        let others = match (self.way, asked) {
            (Way::Stops, _) => !within.all(is_own),
            (Way::Blanks, Slots::Places { named, .. }) => {
                matches!(named, Named::Columns(column) if *column != writer.column())
            }
            _ => false,
        };
        (self.still && others).then_some(&self.slots[..])
    }

    /// The answers of the program for slots so named.
    fn answers(&self, slots: &Slots) -> Vec<String> {
        let settings = Settings {
            resolution: self.writer.dots,
            width: self.width,
            ..Settings::default()
        };
        let mut reader = Reader::new(&settings, Care::Layout);
        let mut show = |_: &_, _: &_| Ok(());
        assert!(reader.read(&self.writer.bytes, &mut show).is_ok());
        reader.settle();
        let mut text = String::new();
        slots::draw(
            &slots::answers(reader.page(), reader.state(), slots),
            &mut text,
        );
        let answer = |line: &str| {
            line.split_once(")  ")
                .map_or(String::new(), |(_, answer)| answer.into())
        };
        text.lines().map(answer).collect()
    }
}

/// The option that names slots at these places: as columns where such are there.
fn named(chance: &mut Chance, writer: &Writer, places: &[u32]) -> Slots {
    let pitches = [
        (360, ""),
        (360, "@10"),
        (300, "@12"),
        (240, "@15"),
        (216, "@17"),
        (180, "@20"),
    ];
    let fits = |(width, _): &&(u32, &str)| {
        *width == writer.column() && places.iter().all(|place| place % width == 0)
    };
    let pitches: Vec<_> = pitches.iter().filter(fits).collect();
    let list = |form: &dyn Fn(u32) -> String| {
        let places: Vec<String> = places.iter().map(|&place| form(place)).collect();
        places.join(",")
    };
    let list = if !pitches.is_empty() && chance.once_in(2) {
        let (width, pitch) = chance.one_of(&pitches);
        list(&|place| (place / width).to_string()) + pitch
    } else if chance.once_in(2) {
        list(&|place| format!("{place}u"))
    } else {
        list(&|place| format!("{:.3}in", f64::from(place) / 3_600.0))
    };
    slots(&list)
}

/// The slots that an option names.
fn slots(list: &str) -> Slots {
    match choice(["--slots".into(), list.into()]) {
        Ok(Choice::Show(options)) => options.slots.unwrap(),
        _ => panic!("{list} is refused"),
    }
}

/// What a run has seen.
#[derive(Default, Debug)]
struct Seen {
    /// Answers, and those of them without a mark that are words.
    answers: usize,
    clear: usize,
    /// Answers of plain cards that bear a mark.
    needless: usize,
    wrong: usize,
}

/// Holds the answers for slots at these places against what was printed; where
/// the card's own slots are others, also against what these have.
fn hold(card: &Card, asked: &Slots, places: &[u32], own: Option<&[u32]>, seen: &mut Seen) {
    // A place in inches is not exact.
    let (places, slack) = match asked {
        Slots::Places { units, named } => (&units[..], u32::from(*named == Named::Inches)),
        Slots::Stops => (places, 0),
    };
    let truth = |places: &[u32], slot: usize| {
        let end = places.get(slot + 1).copied().unwrap_or(card.width);
        card.writer.truth(places[slot], end, slack)
    };
    let answers = card.answers(asked);
    assert_eq!(answers.len(), places.len(), "{asked:?}");
    for (slot, answer) in answers.iter().enumerate() {
        seen.answers += 1;
        if answer.contains(" (") {
            continue;
        }
        seen.clear += usize::from(answer != "(nothing)");
        let right = truth(places, slot) == Some(answer);
        let own = own.filter(|own| slot < own.len());
        let meant = own.is_none_or(|own| truth(own, slot) == Some(answer))
            && (*asked != Slots::Stops || card.writer.is_of_stop(answer, slot));
        if !right || !meant {
            seen.wrong += 1;
            if seen.wrong < 4 {
                let bytes = card.writer.bytes.escape_ascii();
                let (dots, width) = (card.writer.dots, card.width);
                println!(
                    "--dots {dots} --width {width} {asked:?}, slot {}: {answer}\n{bytes}",
                    slot + 1
                );
            }
        }
    }
}

/// A card, asked for its slots in several ways.
fn ask(chance: &mut Chance, seen: &mut Seen) {
    let card = card(chance);
    let stops = card.writer.stop_places();
    if stops.is_empty() || card.slots.is_empty() {
        return;
    }
    hold(&card, &Slots::Stops, &stops, None, seen);
    let exact = named(chance, &card.writer, &card.slots);
    hold(&card, &exact, &card.slots, None, seen);
    if card.plain {
        for asked in [&Slots::Stops, &exact] {
            let answers = card.answers(asked);
            for answer in answers.iter().filter(|answer| answer.contains(" (")) {
                seen.needless += 1;
                if seen.needless < 4 {
                    println!(
                        "needless: {asked:?}: {answer}\n{}",
                        card.writer.bytes.escape_ascii()
                    );
                }
            }
        }
    }
    let (first, step) = match chance.below(3) {
        0 => (3_600, 3_600),
        1 => (360 * (1 + chance.below(15)), 360 * (3 + chance.below(12))),
        _ => (60 * (1 + chance.below(90)), 60 * (20 + chance.below(60))),
    };
    let others: Vec<u32> = (0..7)
        .map(|slot| first + slot * step)
        .filter(|&place| place < 28_800)
        .collect();
    let other = if chance.once_in(2) && others.iter().all(|place| place % 360 == 0) {
        let columns: Vec<String> = others
            .iter()
            .map(|place| (place / 360).to_string())
            .collect();
        slots(&columns.join(","))
    } else {
        let units: Vec<String> = others.iter().map(|place| format!("{place}u")).collect();
        slots(&units.join(","))
    };
    hold(&card, &other, &others, card.own(&other, &others), seen);
}

#[test]
fn generated() {
    let number = |name: &str| {
        env::var(name)
            .ok()
            .and_then(|word| word.parse::<u64>().ok())
    };
    let cards = number("CARDS").unwrap_or(100_000);
    let mut chance = Chance(
        number("SEED")
            .unwrap_or(1)
            .wrapping_mul(0x9E37_79B9_7F4A_7C15)
            | 1,
    );
    let mut seen = Seen::default();
    for _ in 0..cards {
        ask(&mut chance, &mut seen);
    }
    println!("{cards} cards: {seen:?}");
    assert_eq!((seen.wrong, seen.needless), (0, 0));
    assert!(seen.clear * 4 > seen.answers, "too many marks");
}
