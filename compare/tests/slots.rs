//! What stands in a range of columns: what the generated lists reach, and
//! questions told as text.

use compare::random::Random;
use compare::record::RECORD_SIZE;
use compare::slots::generate::{made_up, of_card, question};
use compare::slots::shortest::shortest;
use compare::slots::{answers, difference, plain, text, Question, Tally};
use plain_reader::LIST_REFUSED;
use std::collections::BTreeMap;

/// A question with its records taken apart.
struct Asked<'a> {
    question: &'a Question,
    records: Vec<&'a [u8]>,
    /// The number of the record found.
    found: Option<usize>,
    /// The number of the present page's first record.
    page: usize,
}

impl Asked<'_> {
    fn new(question: &Question) -> Asked<'_> {
        let records: Vec<&[u8]> = question.records.chunks_exact(RECORD_SIZE).collect();
        let answer = plain(question);
        let turns = |record: &&[u8]| record[..2] == *b"LN" && record[6] != 0;
        let turned = records.iter().rposition(turns);
        Asked {
            question,
            found: (answer.length > 0).then_some(answer.start / RECORD_SIZE),
            page: turned.map_or(0, |number| number + 1),
            records,
        }
    }

    fn refused(&self) -> bool {
        self.question.records.len() % RECORD_SIZE != 0
    }

    fn a_above_b(&self) -> bool {
        self.question.from > self.question.to
    }

    fn all(&self) -> std::ops::Range<usize> {
        0..self.records.len()
    }

    fn has_mark(&self, number: usize, mark: &[u8; 2]) -> bool {
        self.records[number][..2] == *mark
    }

    fn unknown(&self, number: usize) -> bool {
        let marks = [b"TX", b"IM", b"LN", b"CL", b"NO"];
        !marks.iter().any(|mark| self.has_mark(number, mark))
    }

    fn column(&self, number: usize) -> u16 {
        u16::from_le_bytes([self.records[number][2], self.records[number][3]])
    }

    fn row_fits(&self, number: usize) -> bool {
        let row = u16::from_le_bytes([self.records[number][4], self.records[number][5]]);
        (self.question.from..=self.question.to).contains(&row)
    }

    /// Whether it is a letter in the range, void or not.
    fn fits(&self, number: usize) -> bool {
        let range = self.question.from..=self.question.to;
        self.has_mark(number, b"TX") && range.contains(&self.column(number))
    }

    /// The records of the present page.
    fn on_page(&self) -> std::ops::Range<usize> {
        self.page..self.records.len()
    }

    /// The first LN or CL after a record.
    fn ended(&self, number: usize) -> Option<usize> {
        let mut after = number + 1..self.records.len();
        after.find(|&next| self.has_mark(next, b"LN") || self.has_mark(next, b"CL"))
    }

    fn is_void(&self, number: usize) -> bool {
        let ended = self.ended(number);
        ended.is_some_and(|end| self.has_mark(end, b"CL"))
    }

    /// Whether a letter of the present page that is not void stands at this
    /// column.
    fn stands_at(&self, column: u16) -> bool {
        let mut letters = self.on_page().filter(|&at| self.has_mark(at, b"TX"));
        letters.any(|at| self.column(at) == column && !self.is_void(at))
    }

    /// Whether a CL comes after the first LN or CL that comes after a record.
    fn kept_before_a_clear(&self, number: usize) -> bool {
        let Some(end) = self.ended(number) else {
            return false;
        };
        let mut later = end + 1..self.records.len();
        later.any(|next| self.has_mark(next, b"CL"))
    }

    /// Whether a void letter of the range has an unknown mark between it and
    /// the CL.
    fn void_past_an_unknown_mark(&self) -> bool {
        self.on_page().any(|number| {
            let end = self.ended(number).unwrap_or(0);
            let mut between = number + 1..end;
            self.fits(number) && self.is_void(number) && between.any(|at| self.unknown(at))
        })
    }
}

/// A class of questions: its name, and whether one belongs to it.
type Class = (&'static str, fn(&Asked) -> bool);
/// One of those with a letter found, whose number is passed.
type FoundClass = (&'static str, fn(&Asked, usize) -> bool);

const LISTS: [Class; 11] = [
    ("refused", |asked| asked.refused()),
    ("refused, with a fit letter", |asked| {
        asked.refused() && asked.all().any(|at| asked.fits(at))
    }),
    ("refused, a above b", |asked| {
        asked.refused() && asked.a_above_b()
    }),
    ("one byte", |asked| asked.question.records.len() == 1),
    ("one byte less than a record", |asked| {
        asked.question.records.len() == RECORD_SIZE - 1
    }),
    ("one byte more than a record", |asked| {
        asked.question.records.len() == RECORD_SIZE + 1
    }),
    ("empty list", |asked| asked.question.records.is_empty()),
    ("long", |asked| asked.records.len() > 500),
    ("a above b", |asked| asked.a_above_b()),
    ("a above b, a letter at a", |asked| {
        asked.a_above_b() && !asked.refused() && asked.stands_at(asked.question.from)
    }),
    ("a above b, a letter at b", |asked| {
        asked.a_above_b() && !asked.refused() && asked.stands_at(asked.question.to)
    }),
];

const FOUND: [FoundClass; 11] = [
    ("found, a is b", |asked, _| {
        asked.question.from == asked.question.to
    }),
    ("found on the present line", |asked, at| {
        asked.ended(at).is_none()
    }),
    ("found, kept from a CL by an LN", |asked, at| {
        asked.kept_before_a_clear(at)
    }),
    ("found in the first of several", |asked, at| {
        at == 0 && asked.records.len() > 1
    }),
    ("found in the last of several", |asked, at| {
        at > 0 && at + 1 == asked.records.len()
    }),
    ("found, with a newer void one", |asked, at| {
        (at + 1..asked.records.len()).any(|newer| asked.fits(newer))
    }),
    ("found, with one on a page before", |asked, _| {
        (0..asked.page).any(|at| asked.fits(at))
    }),
    ("found at a", |asked, at| {
        asked.column(at) == asked.question.from && asked.question.from < asked.question.to
    }),
    ("found at b", |asked, at| {
        asked.column(at) == asked.question.to && asked.question.from < asked.question.to
    }),
    ("found at 0", |asked, at| asked.column(at) == 0),
    ("found at 65535", |asked, at| asked.column(at) == 65_535),
];

/// Those with nothing found, though a is not above b.
const NOTHING: [Class; 7] = [
    ("none in the range", |asked| {
        !asked.all().any(|at| asked.fits(at))
    }),
    ("all void", |asked| asked.on_page().any(|at| asked.fits(at))),
    ("page turned", |asked| {
        (0..asked.page).any(|at| asked.fits(at) && !asked.is_void(at))
    }),
    ("one at a - 1", |asked| {
        let beside = asked.question.from.checked_sub(1);
        beside.is_some_and(|column| asked.stands_at(column))
    }),
    ("one at b + 1", |asked| {
        let beside = asked.question.to.checked_add(1);
        beside.is_some_and(|column| asked.stands_at(column))
    }),
    ("a row in the range", |asked| {
        let mut page = asked.on_page();
        page.any(|at| asked.has_mark(at, b"TX") && asked.row_fits(at))
    }),
    ("void past an unknown mark", |asked| {
        asked.void_past_an_unknown_mark()
    }),
];

/// The classes of a question, by name.
fn classes(question: &Question) -> Vec<&'static str> {
    let asked = Asked::new(question);
    let mut classes = Vec::new();
    let mut add = |(name, so)| classes.extend(Some(name).filter(|_| so));
    for (name, is) in LISTS {
        add((name, is(&asked)));
    }
    if let Some(found) = asked.found {
        for (name, is) in FOUND {
            add((name, is(&asked, found)));
        }
    } else if !asked.refused() && !asked.a_above_b() {
        for (name, is) in NOTHING {
            add((name, is(&asked)));
        }
    }
    classes
}

/// How often each class is met in so many questions.
fn met(questions: u64, generate: fn(&mut Random) -> Question) -> BTreeMap<&'static str, u64> {
    let mut met = BTreeMap::new();
    for seed in 0..questions {
        for class in classes(&generate(&mut Random::new(seed))) {
            *met.entry(class).or_insert(0) += 1;
        }
    }
    println!("{met:#?}");
    met
}

#[test]
fn every_class_of_lists_occurs() {
    let met = met(20_000, made_up);
    let often = 40;
    assert_eq!(met.len(), LISTS.len() + FOUND.len() + NOTHING.len());
    for (class, count) in met {
        assert!(count >= often, "{class}: {count}");
    }
}

#[test]
fn cards_are_asked_at_and_beside_their_letters() {
    let met = met(5_000, of_card);
    for class in [
        "a above b",
        "found, a is b",
        "found on the present line",
        "found, kept from a CL by an LN",
        "found, with one on a page before",
        "found at a",
        "found at b",
        "none in the range",
        "all void",
        "page turned",
        "one at a - 1",
        "one at b + 1",
    ] {
        assert!(met.get(class) >= Some(&40), "{class}");
    }
    assert_eq!(met.get("refused"), None);
}

#[test]
fn no_difference_in_a_small_run() {
    let mut tally = Tally::default();
    for seed in 0..5_000 {
        let question = question(&mut Random::new(seed));
        let found = difference(&question, &mut tally);
        assert_eq!(found, None, "{}", text::text(&question));
    }
    assert!(tally.found > 1_000 && tally.refused > 200, "{tally:?}");
    assert!(tally.records > 50_000, "{tally:?}");
}

#[test]
fn text_tells_the_question() {
    for seed in 0..500 {
        let question = question(&mut Random::new(seed));
        let text = text::text(&question);
        assert!(text::is_question(&text));
        assert_eq!(text::question(&text), Ok(question));
    }
}

#[test]
fn text_that_tells_no_question() {
    for text in [
        "",
        "slot 1",
        "slot 1 65536",
        "slot 1 2 3",
        "slots 1 2",
        "slot 1 -2",
    ] {
        assert!(text::question(text).is_err(), "{text}");
    }
    for line in ["5", "5g", "54 58", "+5", "é0"] {
        assert!(
            text::question(&format!("slot 1 2\n{line}")).is_err(),
            "{line}"
        );
    }
    assert!(!text::is_question("start 300 off\nread 1 28 41\n"));
}

/// Whether a letter is found that an LN keeps from a later CL.
fn shielded(question: &Question) -> bool {
    let asked = Asked::new(question);
    let found = asked.found;
    found.is_some_and(|at| asked.kept_before_a_clear(at)) && answers(question).same()
}

#[test]
fn shrinking_keeps_what_fails() {
    let long = (0..)
        .map(|seed| made_up(&mut Random::new(seed)))
        .find(|question| question.records.len() > 50 * RECORD_SIZE && shielded(question))
        .unwrap();
    let short = shortest(&long, &shielded);
    assert!(shielded(&short));
    let expected = "slot 0 65535\n\
        54580000000000000000000000000000\n\
        4c4e0000000000000000000000000000\n\
        434c0000000000000000000000000000\n";
    assert_eq!(text::text(&short), expected);
    let refused = |question: &Question| plain(question).number == LIST_REFUSED;
    let long = (0..)
        .map(|seed| made_up(&mut Random::new(seed)))
        .find(|question| question.records.len() > 50 * RECORD_SIZE && refused(question))
        .unwrap();
    assert_eq!(shortest(&long, &refused).records.len(), 1);
}
