//! Arbitrary registers: of arbitrary plain states, and with numbers that stand
//! for no plain state at all.

use crate::calls::{self, Call};
use crate::fields::{fields, Field};
use crate::generate;
use crate::hold::Case;
use crate::random::Random;
use crate::registers::{follows, gathers, registers, unseen_stops};
use crate::states::{self, ONE_ARGUMENT, TWO_ARGUMENTS};
use crate::WIDEST;
use ierbulosc::State as Registers;

/// Registers of any sort, and one to three reading calls on them.
pub fn case(random: &mut Random) -> Case {
    let state = Some(arbitrary(random));
    let mut calls = Vec::new();
    for _ in 0..random.pick(&[1, 1, 1, 2, 3]) {
        let call = match random.flag() {
            true => whole_reading(random),
            false => calls::a_reading(random, &mut Vec::new()),
        };
        calls.push(call);
    }
    Case { state, calls }
}

/// A reading call that reads all of its input.
fn whole_reading(random: &mut Random) -> Call {
    let phrases = random.between(1, 16);
    let input = generate::input(random, phrases);
    Call::Read {
        allowance: usize::MAX,
        room: calls::room_for(input.len()),
        input,
    }
}

/// Registers of any sort; some are accepted, many are not.
pub fn arbitrary(random: &mut Random) -> Registers {
    match random.weighted(&[46, 23, 5, 12, 6, 4, 7, 1]) {
        0 => of_plain(random, states::arbitrary),
        1 => changed(random),
        2 => disagreeing(random),
        3 => with_any_waiting(random),
        4 => with_any_image(random),
        5 => with_any_list(random),
        6 => with_unseen_parts(random),
        _ => any_numbers(random),
    }
}

/// The registers of such a plain state, of those that have some.
fn of_plain(random: &mut Random, make: fn(&mut Random) -> plain_reader::State) -> Registers {
    loop {
        let state = make(random);
        if let Some(registers) = registers(&state) {
            return registers;
        }
    }
}

/// Registers inside the bounds.
pub fn accepted(random: &mut Random) -> Registers {
    match random.flag() {
        true => of_plain(random, states::inside),
        false => of_plain(random, states::reached),
    }
}

/// Some registers set to other numbers; mostly those that follow from them are
/// set too, so that nothing else is wrong.
fn changed(random: &mut Random) -> Registers {
    let mut state = accepted(random);
    for _ in 0..random.pick(&[1, 1, 1, 2, 3]) {
        change(random, &mut state);
    }
    match random.percent(70) {
        true => follows(&state),
        false => state,
    }
}

/// Sets one register to some number.
fn change(random: &mut Random, state: &mut Registers) {
    let mut fields = fields(state);
    if random.percent(80) {
        fields.retain(|field| !field.name.is_stop());
    }
    let at = random.below(fields.len() as u64) as usize;
    *fields[at].number = some_number(random, &fields[at]);
}

/// Numbers beside which a bound lies, but for the widest paper.
const LIMITS: [u32; 27] = [
    3, 4, 5, 6, 7, 8, 13, 14, 16, 17, 18, 32, 33, 64, 127, 128, 255, 256, 3_599, 3_600, 5_100,
    5_101, 7_199, 7_200, 79_199, 79_200, 79_201,
];

/// A number beside the register's own, a small one, a great one or any; or its
/// own in the low bits, and more above them.
fn some_number(random: &mut Random, field: &Field) -> u32 {
    let own = *field.number;
    match random.below(10) {
        0 => own.wrapping_add(1),
        1 => own.wrapping_sub(1),
        2 => random.pick(&[0, 1]),
        3 => random.pick(&[2, 255]),
        4 => random.pick(&[9, 10, 11, 12, 13, 15, 200, 203, 204, 300]),
        5 => random.pick(&[u32::MAX, 1 << 31, 1 << 16, (1 << 16) - 1, 256, 32, 16]),
        6 => own.wrapping_add(random.pick(&[1 << 8, 1 << 16, 1 << 24, 1 << 31])),
        7 => random.byte().into(),
        8 => match random.below(11) {
            0 => WIDEST + random.below(2) as u32,
            _ => random.pick(&LIMITS),
        },
        _ => random.number() as u32,
    }
}

/// Registers inside the bounds but for one that does not follow from the
/// others: any number, or one that follows from others elsewhere.
fn disagreeing(random: &mut Random) -> Registers {
    let mut state = accepted(random);
    let mut elsewhere = accepted(random);
    let mut derived = fields(&mut state);
    derived.retain(|field| field.name.is_derived());
    let mut others = fields(&mut elsewhere);
    others.retain(|field| field.name.is_derived());
    let at = random.below(derived.len() as u64) as usize;
    *derived[at].number = match random.flag() {
        true => some_number(random, &derived[at]),
        false => *others[at].number,
    };
    state
}

/// The "a" of ESC i, and numbers beside it, like it, or that end ESC i.
const A_AND_OTHERS: [u32; 12] = [
    0x61, 0x61, 0x61, 0x60, 0x62, 0x41, 0xE1, 0x161, 0x53, 0x73, 0x69, 0x1B,
];

/// Something waited for, with numbers of other kinds than its own.
fn with_any_waiting(random: &mut Random) -> Registers {
    let command = match random.below(9) {
        0 => random.pick(b"\0\0*"),
        1 => random.byte(),
        2 => b'C',
        3 => random.pick(b"BDb"),
        4 => random.pick(b"KLYZ"),
        5 => random.pick(TWO_ARGUMENTS),
        6 => random.pick(b"@EJM[O&*\x0F\x1B"),
        7 => b'i',
        _ => random.pick(ONE_ARGUMENT),
    };
    let argument = match (command, random.below(4)) {
        (b'i', 0) => random.byte().into(),
        (b'i', 1 | 2) => random.pick(&A_AND_OTHERS),
        _ => random.pick(&[0, 0, 0, 1, 255, 256]),
    };
    let above = random.pick(&[0, 0, 0, 0, 0, 0, 0, 1 << 8, 1 << 16]);
    let (image_mode, image_byte) = match random.below(4) {
        0 => (random.pick(&[0, 1, 7, 8, 39]), random.pick(&[0, 1, 2, 3])),
        _ => (0, 0),
    };
    Registers {
        kind: random.pick(&[0, 1, 2, 2, 3, 3, 4, 4, 5, 5, 6, 7, 7, 8, 255, 256, 258]),
        command: u32::from(command) + above,
        argument,
        image_mode,
        image_byte,
        image_columns: random.pick(&[0, 0, 0, 1, 2, 65_535, 65_536, 65_537]),
        ..accepted(random)
    }
}

/// Numbers that tell in one of the registers of what is waited for.
const TELLING: [u32; 28] = [
    0, 1, 2, 3, 4, 5, 6, 7, 8, 31, 32, 33, 34, 38, 39, 40, 41, 0x2A, 0x42, 0x44, 0x4B, 0x62, 0x69,
    72, 255, 256, 65_535, 65_536,
];

/// ESC * or image data waited for, in a mode that may not be listed, with a
/// number or two set to others.
fn with_any_image(random: &mut Random) -> Registers {
    let mode = u32::from(states::a_mode(random));
    let byte = random.between(1, 3) as u32;
    let columns = random.pick(&[1, 2, 300, 65_535]);
    let low = random.byte().into();
    let star = b'*'.into();
    let mut waiting: [u32; 6] = match random.below(6) {
        0 => [ierbulosc::FIRST_ARGUMENT, star, 0, 0, 0, 0],
        1 => [ierbulosc::SECOND_ARGUMENT, star, mode, 0, 0, 0],
        2 => [ierbulosc::THIRD_ARGUMENT, star, low, mode, 0, 0],
        _ => [ierbulosc::IMAGE_DATA, 0, 0, mode, byte, columns],
    };
    set_some(random, &mut waiting);
    waits(accepted(random), waiting)
}

/// A list of stops waited for, one that is gathered or one that is dropped, of a
/// channel or of none, with a number or two set to others.
fn with_any_list(random: &mut Random) -> Registers {
    let mut state = accepted(random);
    if !gathers(&state) || random.flag() {
        state.gathered.count = random.pick(&[0, 0, 0, 1, 16, 17]);
    }
    let last = u32::from(random.byte());
    let channel = u32::from(states::a_channel_number(random));
    let mut waiting: [u32; 6] = match random.below(4) {
        0 => [ierbulosc::STOP_LIST, b'D'.into(), last, 0, 0, 0],
        1 => [ierbulosc::DROPPED_LIST, 0, last, 0, 0, 0],
        _ => [ierbulosc::STOP_LIST, b'B'.into(), last, channel, 0, 0],
    };
    set_some(random, &mut waiting);
    waits(state, waiting)
}

/// Sets up to two of the numbers to others.
fn set_some(random: &mut Random, waiting: &mut [u32; 6]) {
    for _ in 0..random.pick(&[0, 1, 1, 2]) {
        let number = &mut waiting[random.below(6) as usize];
        *number = match random.below(4) {
            0 => number.wrapping_add(random.pick(&[1, 1 << 8, 1 << 16, u32::MAX])),
            _ => random.pick(&TELLING),
        };
    }
}

/// The registers with these for what is waited for.
fn waits(state: Registers, waiting: [u32; 6]) -> Registers {
    let mut registers = state.registers();
    registers[..6].copy_from_slice(&waiting);
    Registers::from_registers(registers)
}

/// Registers inside the bounds with any numbers where no rule looks.
fn with_unseen_parts(random: &mut Random) -> Registers {
    let mut state = accepted(random);
    if !gathers(&state) && random.flag() {
        state.gathered.count = states::a_count(random);
    }
    for stop in unseen_stops(&mut state) {
        *stop = match random.flag() {
            true => random.byte().into(),
            false => random.number() as u32,
        };
    }
    state
}

/// Any number in every register.
fn any_numbers(random: &mut Random) -> Registers {
    let mut state = accepted(random);
    for field in fields(&mut state) {
        *field.number = random.number() as u32;
    }
    state
}
