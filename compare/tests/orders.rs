//! Which settings may be shuffled, through the linked library: from states
//! that generated inputs leave, and where order does matter.

use compare::generate::input;
use compare::random::Random;
use ierbulosc::{records, Answer, Record, Settings, State, NOTHING, NOT_ALLOWED, ROOM};

const ESC: u8 = 0x1B;
/// ESC too, while 80h to 9Fh are no letters.
const UPPER_ESC: u8 = 0x9B;

/// A command that is accepted: its item, and its bytes after ESC.
#[derive(Clone, PartialEq, Eq, Debug)]
struct Setting {
    item: usize,
    bytes: Vec<u8>,
}

/// The items: each one's number, its commands' codes, and the arguments that
/// are accepted, none where there is no argument.
fn rows() -> Vec<(usize, &'static [u8], Vec<u8>)> {
    let none = Vec::new;
    let up_to = |last: u8| (0..=last).collect::<Vec<u8>>();
    let switch = || vec![0, 1, 0x30, 0x31];
    let countries = [&up_to(13)[..], &[0x40]].concat();
    vec![
        (0, b"EF", none()),
        (1, b"GH", none()),
        (2, b"45", none()),
        (3, b"-", switch()),
        (4, b"w", switch()),
        (5, b"S", switch()),
        (5, b"T", none()),
        (6, b"q", up_to(3)),
        (7, b"t", up_to(1)),
        (8, b"k", up_to(255)),
        (9, b"R", countries),
        (10, b" ", up_to(255)),
        (11, b"%", switch()),
    ]
}

/// The commands of a row.
fn commands((item, codes, arguments): &(usize, &[u8], Vec<u8>)) -> Vec<Setting> {
    let mut all = Vec::new();
    for &code in *codes {
        let with = |argument: &u8| vec![code, *argument];
        let bytes = match arguments.is_empty() {
            true => vec![vec![code]],
            false => arguments.iter().map(with).collect(),
        };
        let item = *item;
        all.extend(bytes.into_iter().map(|bytes| Setting { item, bytes }));
    }
    all
}

/// Any of them, each row as often as another.
fn setting(random: &mut Random) -> Setting {
    let rows = rows();
    let row = &rows[random.below(rows.len() as u64) as usize];
    let commands = commands(row);
    commands[random.below(commands.len() as u64) as usize].clone()
}

/// A state that waits for nothing.
fn state(random: &mut Random) -> State {
    loop {
        let (_, mut state) = State::start(&Settings {
            resolution: random.pick(&[300, 203]),
            auto_feed: random.pick(&[0, 1]),
            width: random.pick(&[28_800, 28_800, 7_200, 12_345]),
        });
        let phrases = random.below(12);
        let input = input(random, phrases);
        read(&mut state, &input);
        if state.kind == NOTHING {
            return state;
        }
    }
}

fn read(state: &mut State, input: &[u8]) -> Vec<Record> {
    let mut out = vec![0; ROOM * (input.len() + 1)];
    let report = state.read(input, usize::MAX, &mut out);
    assert_eq!(report.answer, Answer::Done);
    records(&out[..report.written]).collect()
}

/// What an input leaves after a state, which is not changed.
fn after(state: &State, input: &[u8]) -> (State, Vec<Record>) {
    let mut state = *state;
    let records = read(&mut state, input);
    (state, records)
}

/// A byte that stands for ESC in this state.
fn escape(random: &mut Random, state: &State) -> u8 {
    match state.upper_prints {
        0 => random.pick(&[ESC, UPPER_ESC]),
        _ => ESC,
    }
}

fn sent(random: &mut Random, state: &State, settings: &[Setting]) -> Vec<u8> {
    let mut bytes = Vec::new();
    for setting in settings {
        bytes.push(escape(random, state));
        bytes.extend(&setting.bytes);
    }
    bytes
}

/// The same commands in another order, those of an item in the same.
fn shuffled(random: &mut Random, settings: &[Setting]) -> Vec<Setting> {
    let mut all = settings.to_vec();
    for _ in 0..4 * all.len() {
        let at = random.below(all.len() as u64 - 1) as usize;
        if all[at].item != all[at + 1].item {
            all.swap(at, at + 1);
        }
    }
    all
}

/// Every two commands that are accepted, with all of their arguments.
#[test]
fn two_of_different_items_in_either_order() {
    let all: Vec<Setting> = rows().iter().flat_map(commands).collect();
    let sent: Vec<Vec<u8>> = all
        .iter()
        .map(|one| [&[ESC], &one.bytes[..]].concat())
        .collect();
    for seed in 0..3 {
        let state = state(&mut Random::new(seed));
        let alone: Vec<State> = sent.iter().map(|bytes| after(&state, bytes).0).collect();
        for (first, setting) in all.iter().enumerate() {
            for (second, other) in all.iter().enumerate().skip(first) {
                let one = after(&alone[first], &sent[second]);
                let two = after(&alone[second], &sent[first]);
                let different = setting.item != other.item;
                assert!(!different || one == two, "{seed}: {setting:?}, {other:?}");
                assert_eq!((&one.1, &two.1), (&vec![], &vec![]));
            }
        }
    }
}

#[test]
fn settings_may_be_shuffled() {
    let mut moved = 0;
    for seed in 0..20_000 {
        let random = &mut Random::new(seed);
        let state = state(random);
        let count = random.between(2, 14);
        let settings: Vec<Setting> = (0..count).map(|_| setting(random)).collect();
        let others = shuffled(random, &settings);
        moved += u64::from(settings != others);
        let one = after(&state, &sent(random, &state, &settings));
        let other = after(&state, &sent(random, &state, &others));
        assert_eq!(one, other, "{seed}: {settings:?}, {others:?}");
        assert_eq!(one.1, [], "{seed}: {settings:?}");
    }
    assert!(moved > 15_000, "{moved}");
}

#[test]
fn twice_is_once() {
    for seed in 0..20_000 {
        let random = &mut Random::new(seed);
        let state = state(random);
        let one = vec![setting(random)];
        let two = [&one[..], &one].concat();
        let once = after(&state, &sent(random, &state, &one));
        let twice = after(&state, &sent(random, &state, &two));
        assert_eq!(once, twice, "{seed}: {one:?}");
        assert_eq!(once.1, [], "{seed}: {one:?}");
    }
}

/// ESC \ by a number of two bytes, which is below 0 from 8000h on.
fn moved(by: u16) -> Vec<u8> {
    let [low, high] = by.to_le_bytes();
    vec![ESC, b'\\', low, high]
}

#[test]
fn moves_add_up() {
    let mut done = 0;
    for seed in 0..20_000 {
        let random = &mut Random::new(seed);
        let state = state(random);
        let mut far = || match random.below(4) {
            0 => random.number() as u16,
            1 => random.pick(&[0, 1, 0xFFFF, 0x7FFF, 0x8000, 1_440]),
            2 => random.below(300) as u16,
            _ => 0_u16.wrapping_sub(random.below(300) as u16),
        };
        let (first, second) = (far(), far());
        let both = after(&state, &[moved(first), moved(second)].concat());
        if both.1.is_empty() {
            done += 1;
            let one = after(&state, &moved(first.wrapping_add(second)));
            assert_eq!(both, one, "{seed}: {first}, {second}");
        }
    }
    assert!(done > 3_000, "{done}");
}

/// From power-on at 300 dots.
fn from_power_on(input: &[u8]) -> (State, Vec<Record>) {
    after(&State::start(&Settings::default()).1, input)
}

/// At 15 cpi SI is passed over: before ESC g it is done, after it is not.
#[test]
fn order_matters_between_si_and_15_cpi() {
    let passed = Record::No {
        byte: 0x0F,
        reason: NOT_ALLOWED,
    };
    let (before, records) = from_power_on(b"\x0F\x1Bg");
    assert_eq!((before.reduced, records), (1, vec![]));
    let (after, records) = from_power_on(b"\x1Bg\x0F");
    assert_eq!((after.reduced, records), (0, vec![passed]));
    assert_eq!((before.pitch, after.pitch), (15, 15));
}

/// ESC ! sets several items at once: the last one stands.
#[test]
fn order_matters_between_esc_exclamation_and_what_it_sets() {
    let bold_after = from_power_on(b"\x1B!\x00\x1BE").0;
    let bold_before = from_power_on(b"\x1BE\x1B!\x00").0;
    assert_eq!((bold_after.bold, bold_before.bold), (1, 0));
    let plain_after = from_power_on(b"\x1B!\x80\x1B-\x00").0;
    let plain_before = from_power_on(b"\x1B-\x00\x1B!\x80").0;
    assert_eq!((plain_after.underline, plain_before.underline), (0, 1));
}

/// Two commands of one item: the last one stands.
#[test]
fn order_matters_within_an_item() {
    assert_eq!(from_power_on(b"\x1BE\x1BF").0.bold, 0);
    assert_eq!(from_power_on(b"\x1BF\x1BE").0.bold, 1);
}
