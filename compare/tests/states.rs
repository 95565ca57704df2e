//! The states of cases/states.txt, just inside and just outside of each bound,
//! through the library and through the plain reader's own test; and the parts
//! of a state that cases/short.txt says its inputs leave.

use compare::bounds::{lines, number, set_all, states};
use compare::registers::{plain, registers};
use ierbulosc::{Answer, Settings, State};

const SHORT: &str = include_str!("../../cases/short.txt");

#[test]
fn bounds() {
    let mut counts = [0; 3];
    for (word, state) in states().unwrap() {
        let told = plain(&state);
        let (place, accepted) = match word {
            "accepted" => (0, true),
            "refused" => (1, false),
            "no-state" => (2, false),
            _ => panic!("{word}"),
        };
        counts[place] += 1;
        let answer = { state }.read(&[], 0, &mut []).answer;
        assert_eq!(answer != Answer::StateRefused, accepted, "{state:?}");
        let plain_accepts = told.is_some_and(|state| state.accepted());
        assert_eq!(plain_accepts, accepted, "{state:?}");
    }
    let [accepted, refused, no_state] = counts;
    assert!(accepted > 50 && refused > 50 && no_state > 10, "{counts:?}");
}

/// A case, as far as it comes to the state that is left.
#[derive(Default)]
struct Case {
    settings: Settings,
    input: Vec<u8>,
    parts: Vec<&'static str>,
}

fn cases() -> Vec<Case> {
    let mut cases = vec![Case::default()];
    for words in lines(SHORT) {
        let case = cases.last_mut().unwrap();
        match words[0] {
            "dots" => case.settings.resolution = number(words[1]).unwrap(),
            "auto-feed" => case.settings.auto_feed = u32::from(words[1] == "on"),
            "width" => case.settings.width = number(words[1]).unwrap(),
            "input" => {
                let bytes = words[1..].iter();
                case.input = bytes
                    .map(|byte| u8::from_str_radix(byte, 16).unwrap())
                    .collect();
            }
            "state" => case.parts.extend(&words[1..]),
            "end" => cases.push(Case::default()),
            _ => (),
        }
    }
    cases
}

/// The parts named are as they are: to set them so changes nothing.
#[test]
fn parts_of_the_state_left() {
    let mut tried = 0;
    for case in cases().iter().filter(|case| !case.parts.is_empty()) {
        let Settings {
            resolution,
            auto_feed,
            width,
        } = case.settings;
        let mut out = [0; 4096];
        let (_, mut proved) = State::start(&case.settings);
        proved.read(&case.input, usize::MAX, &mut out);
        let (_, mut told) = plain_reader::start(resolution, auto_feed != 0, width);
        plain_reader::read(&mut told, &case.input, usize::MAX, &mut out);
        for state in [proved, registers(&told).unwrap()] {
            let mut same = state;
            set_all(&mut same, &case.parts).unwrap();
            assert_eq!(same, state, "{:?}", case.parts);
        }
        tried += 1;
    }
    assert!(tried > 20, "{tried}");
}
