//! What the generators reach.

use compare::arbitrary;
use compare::calls::{calls, room_for, run, Call, FILL};
use compare::fields;
use compare::generate::{self, CHANNELS, NO_CHANNELS, ONE_BYTE_MODES, THREE_BYTE_MODES};
use compare::random::Random;
use compare::registers::{follows, plain};
use compare::shrink::shrink;
use compare::states::{self, inside, normal, reached};
use ierbulosc::{Settings, State as Registers, COLUMNS, LINES, RECORD_SIZE, REGISTERS, ROOM};
use plain_reader::{read, start, Waiting};
use std::collections::{BTreeMap, BTreeSet};

#[test]
fn all_answers_records_and_reasons_occur() {
    let mut answers = BTreeSet::new();
    let mut records = BTreeMap::new();
    for seed in 0..2_000 {
        let outcomes = run(&calls(&mut Random::new(seed)));
        for outcome in outcomes {
            answers.insert(outcome.answer);
            let (written, rest) = outcome.out.split_at(outcome.written);
            assert!(rest.iter().all(|&byte| byte == FILL));
            for record in written.chunks_exact(RECORD_SIZE) {
                let mark = String::from_utf8_lossy(&record[..2]).into_owned();
                let key = match mark.as_str() {
                    "NO" => format!("NO {}", record[8]),
                    "LN" => format!("LN {}", record[6]),
                    _ => mark,
                };
                *records.entry(key).or_insert(0) += 1;
            }
        }
    }
    assert_eq!(answers, BTreeSet::from([0, 1, 2, 3]));
    println!("{records:?}");
    let kinds = [
        "CL", "IM", "LN 0", "LN 1", "LN 2", "LN 255", "NO 1", "NO 2", "NO 3", "NO 4", "NO 5", "TX",
    ];
    for kind in kinds {
        assert!(records.get(kind) > Some(&30), "{kind}: {records:?}");
    }
}

#[test]
fn a_fair_part_of_the_states_is_accepted() {
    let mut random = Random::new(1);
    let states: Vec<_> = (0..20_000)
        .map(|_| states::arbitrary(&mut random))
        .collect();
    let accepted = states.iter().filter(|state| state.accepted()).count();
    println!("{accepted} of {} accepted", states.len());
    assert!((6_000..12_000).contains(&accepted), "{accepted} accepted");
}

#[test]
fn reached_and_inside_states_are_accepted() {
    let mut random = Random::new(2);
    for _ in 0..5_000 {
        assert!(reached(&mut random).accepted());
        let state = inside(&mut random);
        assert!(state.accepted(), "{state:?}");
        assert!(normal(&state).accepted());
    }
}

#[test]
fn any_state_is_read_or_left_alone() {
    let mut random = Random::new(3);
    for _ in 0..20_000 {
        let before = states::arbitrary(&mut random);
        let mut state = before.clone();
        let phrases = random.below(12);
        let input = generate::input(&mut random, phrases);
        let room = random.below(room_for(input.len()) as u64) as usize;
        let mut out = vec![FILL; room];
        let report = read(&mut state, &input, usize::MAX, &mut out);
        if before.accepted() {
            assert!(matches!(report.answer, 0 | 2));
            assert!(state.accepted(), "{before:?}\n{input:02X?}\n{state:?}");
        } else {
            assert_eq!((report.answer, report.read, report.written), (4, 0, 0));
            assert_eq!(state, before);
        }
        assert!(out[report.written..].iter().all(|&byte| byte == FILL));
    }
}

/// States inside the bounds in which each channel was never set, is empty, has
/// some stops or is full, chosen or not.
#[test]
fn channels_of_all_sorts_occur() {
    let mut random = Random::new(5);
    let states = (0..100_000).map(|_| arbitrary::arbitrary(&mut random));
    let mut such = BTreeMap::new();
    for state in states.filter(accepted) {
        for (channel, count) in state.channels.counts.into_iter().enumerate() {
            let chosen = channel == state.chosen as usize;
            *such.entry((channel, chosen, count)).or_insert(0) += 1;
        }
    }
    for channel in 0..CHANNELS.len() {
        for chosen in [false, true] {
            for count in [0, 1, 2, 4, 9, 16, 17] {
                let such = such.get(&(channel, chosen, count));
                println!("channel {channel}, chosen {chosen}, count {count}: {such:?}");
                assert!(such > Some(&20), "{channel}, {chosen}, {count}: {such:?}");
            }
        }
    }
    assert!(such.keys().all(|(_, _, count)| *count <= 17));
}

fn accepted(state: &Registers) -> bool {
    plain(state).is_some_and(|state| state.accepted())
}

/// Whether a list of this escape is gathered.
fn gathers(state: &Registers, command: u8) -> bool {
    (state.kind, state.command) == (ierbulosc::STOP_LIST, command.into())
}

/// The count of a list of stops, if the state has such a one.
type Count = fn(&mut Registers) -> Option<&mut u32>;

/// The counts, and the highest that each may be.
const COUNTS: [(&str, Count, usize); 11] = [
    ("columns", |state| Some(&mut state.columns.count), COLUMNS),
    (
        "gathered columns",
        |state| gathers(state, b'D').then_some(&mut state.gathered.count),
        COLUMNS,
    ),
    (
        "gathered lines",
        |state| gathers(state, b'B').then_some(&mut state.gathered.count),
        LINES,
    ),
    ("channel 0", of_channel::<0>, LINES + 1),
    ("channel 1", of_channel::<1>, LINES + 1),
    ("channel 2", of_channel::<2>, LINES + 1),
    ("channel 3", of_channel::<3>, LINES + 1),
    ("channel 4", of_channel::<4>, LINES + 1),
    ("channel 5", of_channel::<5>, LINES + 1),
    ("channel 6", of_channel::<6>, LINES + 1),
    ("channel 7", of_channel::<7>, LINES + 1),
];

fn of_channel<const CHANNEL: usize>(state: &mut Registers) -> Option<&mut u32> {
    Some(&mut state.channels.counts[CHANNEL])
}

/// Lists with too high a count, by one or by far, and nothing else wrong.
#[test]
fn too_many_stops_occur() {
    let mut random = Random::new(6);
    let states: Vec<_> = (0..200_000)
        .map(|_| arbitrary::arbitrary(&mut random))
        .collect();
    for (name, count, most) in COUNTS {
        let most = most as u32;
        for counts in [most + 1..=most + 1, 65_536..=u32::MAX] {
            let such = states.iter().filter(|state| {
                let mut mended = **state;
                let count = count(&mut mended).filter(|count| counts.contains(count));
                count.map(|count| *count = most).is_some() && accepted(&mended)
            });
            let such = such.count();
            println!("{counts:?} {name}: {such}");
            assert!(such > 3, "{counts:?} {name}: {such}");
        }
    }
}

/// Columns with one stop above 255, and nothing else wrong.
#[test]
fn columns_above_255_occur() {
    let mut random = Random::new(7);
    let states = (0..60_000).map(|_| arbitrary::arbitrary(&mut random));
    let such = states.filter(|state| {
        let mut mended = *state;
        let mut stops = mended.columns.stops.iter_mut();
        let high = stops.find(|stop| **stop > 255);
        high.map(|stop| *stop = 255).is_some() && !accepted(state) && accepted(&mended)
    });
    assert!(such.count() > 30);
}

/// Registers that are wrong alone: with a number of power-on in one, and what
/// follows from it, the state is accepted.
#[test]
fn each_register_is_wrong_alone() {
    let mut random = Random::new(9);
    let power_on = Registers::start(&Settings::default()).1;
    let mut such = vec![0; REGISTERS];
    for _ in 0..100_000 {
        let state = arbitrary::arbitrary(&mut random);
        if accepted(&state) {
            continue;
        }
        for (at, such) in such.iter_mut().enumerate().filter(not_in_a_list) {
            let mut mended = state.registers();
            mended[at] = power_on.registers()[at];
            let mended = follows(&Registers::from_registers(mended));
            let alone = mended.registers()[at] != state.registers()[at] && accepted(&mended);
            *such += u64::from(alone);
        }
    }
    let mut state = power_on;
    let names = fields::fields(&mut state)
        .into_iter()
        .map(|field| field.name);
    for (_, (name, such)) in names.zip(such).enumerate().filter(not_in_a_list) {
        println!("{name}: {such}");
        assert!(such > 20, "{name}: {such}");
    }
}

/// Whether a register has a meaning of its own, whatever is waited for: all but
/// stops and the count of those gathered.
fn not_in_a_list<T>((at, _): &(usize, T)) -> bool {
    (0..43).contains(at) || (108..116).contains(at)
}

/// Gathered lists of both kinds, from empty to full, and anything at all in
/// the gathering place while nothing is gathered.
#[test]
fn gathered_lists_of_both_kinds_occur() {
    let mut random = Random::new(8);
    let states: Vec<_> = (0..100_000)
        .map(|_| arbitrary::arbitrary(&mut random))
        .filter(accepted)
        .collect();
    let occurs = |what: &str, test: &dyn Fn(&Registers) -> bool| {
        let such = states.iter().filter(|state| test(state)).count();
        println!("{what}: {such}");
        assert!(such > 30, "{what}: {such}");
    };
    for (command, most) in [(b'D', COLUMNS as u32), (b'B', LINES as u32)] {
        for count in [0, 1, 3, most - 1, most] {
            occurs(&format!("{count} of {command}"), &|state| {
                gathers(state, command) && state.gathered.count == count
            });
        }
    }
    for count in [1, 16, 17, 32, 33, 65_536, u32::MAX] {
        occurs(&format!("{count} of none"), &|state| {
            state.kind != ierbulosc::STOP_LIST && state.gathered.count == count
        });
    }
}

/// Calls that are cut inside ESC /, ESC b and their lists, of each channel and
/// of none, and that go on from there.
#[test]
fn channels_are_cut_after_each_byte() {
    let mut gone_on = BTreeMap::new();
    for seed in 0..6_000 {
        let outcomes = run(&calls(&mut Random::new(seed)));
        for pair in outcomes.windows(2) {
            let place = match pair[0].state.waiting {
                Waiting::Arguments { command, .. } if b"/b".contains(&command) => (command, 0),
                Waiting::VerticalStops { channel, .. } => (b'B', channel),
                Waiting::DroppedStops { last } => (b' ', u8::from(last > 0)),
                _ => continue,
            };
            if pair[1].read > 0 {
                *gone_on.entry(place).or_insert(0) += 1;
            }
        }
    }
    println!("{gone_on:?}");
    let lists = CHANNELS.map(|channel| (b'B', channel)).into_iter();
    let others = [(b'/', 0), (b'b', 0), (b' ', 0), (b' ', 1)];
    for place in lists.chain(others) {
        assert!(gone_on.get(&place) > Some(&10), "{place:?}: {gone_on:?}");
    }
}

/// Every number of a channel comes; each channel gets empty lists, full ones and
/// longer ones; dropped lists are as long; VT comes with each channel chosen
/// that was never set, is empty, or has stops.
#[test]
fn telling_channels_come() {
    let mut numbers = [BTreeSet::new(), BTreeSet::new()];
    let mut ended = BTreeMap::new();
    let mut passed_over = BTreeMap::new();
    let mut dropped = BTreeMap::new();
    let mut tabs = BTreeMap::new();
    for seed in 0..12_000 {
        let input = generate::input(&mut Random::new(seed), 60);
        let (_, mut state) = start(300, false, 28_800);
        let mut length = 0;
        for byte in input {
            let before = state.clone();
            read(&mut state, &[byte], 1, &mut [0; ROOM]);
            match before.waiting {
                Waiting::Arguments { command, .. } if b"/b".contains(&command) => {
                    numbers[usize::from(command == b'b')].insert(byte);
                    length = 0;
                }
                Waiting::VerticalStops { channel, last } if byte <= last => {
                    *ended.entry((channel, before.gathered.count)).or_insert(0) += 1;
                }
                Waiting::VerticalStops { channel, .. } if before.gathered.count == LINES => {
                    *passed_over.entry(channel).or_insert(0) += 1;
                }
                Waiting::DroppedStops { last } if byte <= last => {
                    *dropped.entry(length).or_insert(0) += 1;
                }
                Waiting::DroppedStops { .. } => length += 1,
                Waiting::Nothing if byte == 11 => {
                    let stops = &before.channels[usize::from(before.chosen)];
                    let sort = stops.as_ref().map(|stops| stops.count.min(1));
                    *tabs.entry((before.chosen, sort)).or_insert(0) += 1;
                }
                _ => {}
            }
        }
    }
    let [chosen, set] = numbers;
    println!("{} numbers of ESC /, {} of ESC b", chosen.len(), set.len());
    for number in CHANNELS.into_iter().chain(NO_CHANNELS).chain([0x1B, 0x30]) {
        assert!(
            chosen.contains(&number) && set.contains(&number),
            "{number}"
        );
    }
    assert!(chosen.len() == 256 && set.len() == 256);
    println!("{ended:?}\n{passed_over:?}\n{dropped:?}\n{tabs:?}");
    for channel in CHANNELS {
        for count in [0, 1, 2, 15, 16] {
            assert!(ended.get(&(channel, count)) > Some(&3), "{channel} {count}");
        }
        assert!(passed_over.get(&channel) > Some(&10), "channel {channel}");
        for sort in [None, Some(0), Some(1)] {
            assert!(tabs.get(&(channel, sort)) > Some(&20), "{channel} {sort:?}");
        }
    }
    for length in [0, 1, 2, 15, 16, 17, 33] {
        assert!(dropped.get(&length) > Some(&3), "{length}");
    }
}

/// Calls that are cut inside ESC i, at each place, and that go on from there.
#[test]
fn esc_i_is_cut_after_each_byte() {
    let places = [
        Waiting::SecondByte,
        Waiting::ThirdByte,
        Waiting::CommandMode,
    ];
    let mut gone_on = [0; 3];
    for seed in 0..2_000 {
        let outcomes = run(&calls(&mut Random::new(seed)));
        for pair in outcomes.windows(2) {
            let place = places
                .iter()
                .position(|&place| place == pair[0].state.waiting);
            if let Some(place) = place.filter(|_| pair[1].read > 0) {
                gone_on[place] += 1;
            }
        }
    }
    println!("{gone_on:?}");
    assert!(gone_on.iter().all(|&such| such > 10), "{gone_on:?}");
}

/// Inside ESC i come the bytes that it takes, and those that tell readings
/// apart.
#[test]
fn telling_bytes_come_inside_esc_i() {
    let input = generate::input(&mut Random::new(10), 100_000);
    let mut inside = [BTreeSet::new(), BTreeSet::new()];
    let (_, mut state) = start(300, false, 28_800);
    for byte in input {
        match state.waiting {
            Waiting::ThirdByte => inside[0].insert(byte),
            Waiting::CommandMode => inside[1].insert(byte),
            _ => false,
        };
        read(&mut state, &[byte], 1, &mut [0; ROOM]);
    }
    let [thirds, modes] = inside;
    println!("{} third bytes, {} modes", thirds.len(), modes.len());
    assert!(b"aSsA`bRT\x1B\x9B\x8A\x0A\0"
        .iter()
        .all(|byte| thirds.contains(byte)));
    assert!(b"\0\x01\x03\x04\x30\x33\x34\x80\x1B"
        .iter()
        .all(|byte| modes.contains(byte)));
}

/// Registers that wait for ESC i with all that may stand there, and with
/// something else, and nothing else wrong.
#[test]
fn right_and_wrong_places_of_esc_i_occur() {
    let mut random = Random::new(12);
    let [mut third_byte, mut mode] = [0, 0];
    let mut wrong = BTreeMap::new();
    for _ in 0..800_000 {
        let state = arbitrary::arbitrary(&mut random);
        let mended = Registers {
            kind: ierbulosc::SECOND_ARGUMENT,
            argument: b'a'.into(),
            ..state
        };
        if state.command != b'i'.into() || !accepted(&mended) {
            continue;
        }
        match (accepted(&state), state.kind) {
            (true, ierbulosc::FIRST_ARGUMENT) => third_byte += 1,
            (true, _) => mode += 1,
            (false, kind) => *wrong.entry((kind, state.argument)).or_insert(0) += 1,
        }
    }
    println!("{third_byte} third bytes, {mode} modes, wrong: {wrong:?}");
    assert!(third_byte > 500 && mode > 500);
    for argument in [0, 0x60, 0x62, 0x53, 0x161] {
        assert!(wrong.get(&(3, argument)) > Some(&3), "{argument}");
    }
    let kinds: BTreeSet<u32> = wrong.keys().map(|(kind, _)| *kind).collect();
    assert!((0..=6).all(|kind| kinds.contains(&kind)), "{kinds:?}");
}

/// Calls that are cut inside ESC * and inside a column, at each place and in
/// each mode, and that go on from there.
#[test]
fn images_are_cut_after_each_byte() {
    let mut gone_on = BTreeMap::new();
    for seed in 0..6_000 {
        let outcomes = run(&calls(&mut Random::new(seed)));
        for pair in outcomes.windows(2) {
            let place = match pair[0].state.waiting {
                Waiting::ImageMode => (0, 0),
                Waiting::ColumnsLow { .. } => (1, 0),
                Waiting::ColumnsHigh { .. } => (2, 0),
                Waiting::Image { mode, nth, .. } => (2 + nth, mode),
                _ => continue,
            };
            if pair[1].read > 0 {
                *gone_on.entry(place).or_insert(0) += 1;
            }
        }
    }
    println!("{gone_on:?}");
    let arguments = [(0, 0), (1, 0), (2, 0)].into_iter();
    let one_byte = ONE_BYTE_MODES.map(|mode| (3, mode)).into_iter();
    let bytes = |mode| [(3, mode), (4, mode), (5, mode)];
    let three_bytes = THREE_BYTE_MODES.into_iter().flat_map(bytes);
    for place in arguments.chain(one_byte).chain(three_bytes) {
        assert!(gone_on.get(&place) > Some(&10), "{place:?}: {gone_on:?}");
    }
}

/// Every mode number comes, also begun by 9Bh, and with every listed one no
/// columns, one, 255, 256 and 65,535.
#[test]
fn telling_bytes_come_inside_esc_star() {
    let mut modes = [BTreeSet::new(), BTreeSet::new()];
    let mut columns = BTreeMap::new();
    for seed in 0..20_000 {
        let input = generate::input(&mut Random::new(seed), 60);
        let (_, mut state) = start(300, false, 28_800);
        let mut before = [0; 2];
        for byte in input {
            match state.waiting {
                Waiting::ImageMode => {
                    modes[usize::from(before[0] == 0x9B)].insert(byte);
                }
                Waiting::ColumnsHigh { mode, low } => {
                    let number = u16::from_le_bytes([low, byte]);
                    *columns.entry((mode, number)).or_insert(0) += 1;
                }
                _ => {}
            }
            before = [before[1], byte];
            read(&mut state, &[byte], 1, &mut [0; ROOM]);
        }
    }
    let [modes, upper] = modes.map(|modes| modes.len());
    println!("{modes} modes, {upper} of them begun by 9Bh");
    assert!(modes == 256 && upper > 150);
    for mode in ONE_BYTE_MODES.into_iter().chain(THREE_BYTE_MODES) {
        for number in [0, 1, 2, 255, 256, 65_535] {
            let such = columns.get(&(mode, number));
            println!("mode {mode}, {number} columns: {such:?}");
            assert!(such > Some(&0), "mode {mode}, {number} columns");
        }
    }
}

/// Images whose columns end beside the right margin: in every mode runs that
/// end in a column that fits just so, and in one that does not fit.
#[test]
fn margins_end_inside_runs_of_columns() {
    let mut ends = BTreeMap::new();
    for seed in 0..2_000 {
        let input = generate::input(&mut Random::new(seed), 60);
        let (_, mut state) = start(300, false, 28_800);
        for byte in input {
            let before = state.clone();
            let mut out = [0; ROOM];
            let report = read(&mut state, &[byte], 1, &mut out);
            if let Waiting::Image { mode, nth, .. } = before.waiting {
                let placed = report.written > 0 && out.starts_with(b"IM");
                let inside = before.left < before.across;
                let full = inside && placed && state.across == state.right;
                let over = inside && !placed;
                *ends.entry((mode, nth, true)).or_insert(0) += u64::from(full);
                *ends.entry((mode, nth, false)).or_insert(0) += u64::from(over);
            }
        }
    }
    println!("{ends:?}");
    for mode in ONE_BYTE_MODES.into_iter().chain(THREE_BYTE_MODES) {
        let last = if THREE_BYTE_MODES.contains(&mode) {
            3
        } else {
            1
        };
        assert!(ends.get(&(mode, last, true)) > Some(&10), "mode {mode}");
        for nth in 1..=last {
            assert!(ends.get(&(mode, nth, false)) > Some(&10), "mode {mode}");
        }
    }
}

/// Registers that wait for ESC * and for image data with all that may stand
/// there, and with something else, and nothing else wrong.
#[test]
fn right_and_wrong_places_of_images_occur() {
    let mut random = Random::new(15);
    let mut right = BTreeMap::new();
    let mut wrong = BTreeMap::new();
    for _ in 0..400_000 {
        let state = arbitrary::arbitrary(&mut random);
        let numbers = state.registers();
        let mut mended = numbers;
        mended[..6].fill(0);
        if !accepted(&Registers::from_registers(mended)) {
            continue;
        }
        let place = (state.kind, state.image_mode, state.image_byte);
        let images = [ierbulosc::IMAGE_DATA, ierbulosc::THIRD_ARGUMENT].contains(&state.kind);
        let counts = match accepted(&state) {
            true => &mut right,
            false => &mut wrong,
        };
        if images && numbers[1..3] == [0, 0] || state.command == u32::from(b'*') {
            *counts.entry(place).or_insert(0) += 1;
            if state.kind == ierbulosc::SECOND_ARGUMENT && numbers[3..6] == [0; 3] {
                *counts.entry((3, state.argument, 0)).or_insert(0) += 1;
            }
        }
    }
    let such = |counts: &BTreeMap<_, u64>, place| counts.get(&place).copied().unwrap_or(0);
    assert!(such(&right, (2, 0, 0)) > 100);
    let listed = ONE_BYTE_MODES.into_iter().chain(THREE_BYTE_MODES);
    for mode in listed.map(u32::from) {
        let bytes = if mode < 32 { 1 } else { 3 };
        assert!(such(&right, (3, mode, 0)) > 20, "mode {mode}");
        assert!(such(&right, (6, mode, 0)) > 20, "mode {mode}");
        for byte in 1..=bytes {
            assert!(such(&right, (5, mode, byte)) > 100, "{mode}, byte {byte}");
        }
        for byte in [0, bytes + 1, 4] {
            assert!(such(&wrong, (5, mode, byte)) > 3, "{mode}, byte {byte}");
        }
    }
    for mode in [5, 7, 31, 34, 41, 72] {
        assert!(such(&wrong, (3, mode, 0)) > 3, "mode {mode}");
        assert!(such(&wrong, (6, mode, 0)) > 3, "mode {mode}");
        assert!(such(&wrong, (5, mode, 1)) > 3, "mode {mode}");
    }
}

/// Starts on paper of widths at and beside the limits, and of many others.
#[test]
fn telling_widths_occur() {
    let mut starts = BTreeMap::new();
    for seed in 0..2_000 {
        for call in calls(&mut Random::new(seed)) {
            if let Call::Start(settings) = call {
                *starts.entry(settings.width).or_insert(0) += 1;
            }
        }
    }
    for width in [0, 7_199, 7_200, 7_201, 7_559, 28_799, 28_800, 28_801] {
        let such = starts.get(&width);
        println!("{width}: {such:?}");
        assert!(such > Some(&30), "{width}: {such:?}");
    }
    let between = starts
        .keys()
        .filter(|width| (7_202..28_799).contains(*width));
    assert!(between.count() > 300);
}

/// Registers whose right margin is one short of the paper's width, at it or one
/// past it, and nothing else wrong.
#[test]
fn right_margins_beside_the_width_occur() {
    let mut random = Random::new(14);
    let mut such = [0; 3];
    for _ in 0..100_000 {
        let state = arbitrary::arbitrary(&mut random);
        let mended = Registers {
            right: state.right.min(state.paper_width),
            ..state
        };
        let past = state.right.wrapping_add(1).wrapping_sub(state.paper_width);
        if let Some(such) = such.get_mut(past as usize).filter(|_| accepted(&mended)) {
            *such += 1;
        }
    }
    println!("{such:?}");
    assert!(such.iter().all(|&such| such > 50), "{such:?}");
}

/// Parts that no rule looks at make no difference to what is read.
#[test]
fn unseen_parts_make_no_difference() {
    let mut random = Random::new(4);
    for _ in 0..10_000 {
        let mut state = states::arbitrary(&mut random);
        let mut plain = normal(&state);
        assert_eq!(state.accepted(), plain.accepted());
        let input = generate::input(&mut random, 8);
        let mut outs = [vec![0; 2_000], vec![0; 2_000]];
        let report = read(&mut state, &input, 500, &mut outs[0]);
        assert_eq!(report, read(&mut plain, &input, 500, &mut outs[1]));
        assert_eq!(outs[0], outs[1]);
        assert_eq!(normal(&state), normal(&plain));
    }
}

#[test]
fn shrinking_keeps_what_fails() {
    let passes_page = |list: &[Call]| {
        let outcomes = run(list);
        outcomes.iter().any(|outcome| {
            let mut records = outcome.out[..outcome.written].chunks_exact(RECORD_SIZE);
            records.any(|record| &record[..2] == b"LN" && record[6] == 1)
        })
    };
    let list = (0..)
        .map(|seed| calls(&mut Random::new(seed)))
        .find(|list| list.len() > 10 && passes_page(list))
        .unwrap();
    let short = shrink(&list, &passes_page, 5_000);
    let plain = Call::Start(Settings::default());
    assert!(passes_page(&short));
    assert_eq!((short.len(), &short[0]), (2, &plain));
    let Call::Read { input, .. } = &short[1] else {
        panic!("a reading call is left");
    };
    assert!(input.len() <= 8, "{input:02X?}");
}

#[test]
fn starts_are_accepted_states() {
    for dots in [300, 203, 0] {
        for width in [0, 7_199, 7_200, 7_559, 28_800, 28_801] {
            assert!(start(dots, true, width).1.accepted());
        }
    }
}
