//! The stack that the proved reader takes: it is called on a stack of its own,
//! filled with a pattern, and what has changed is looked at. What it calls of
//! the system's library is bound before the program begins (`-z now`, as Rust
//! links); bound at the first call it would show the loader's stack too.

use crate::readers::{PIECES, RESOLUTIONS};
use crate::{cards, slots, Problem};
use compare::generate;
use compare::random::Random;
use ierbulosc::interface::{escp_read, escp_slot, escp_start, escp_write, Counts, Part};
use ierbulosc::{Settings, State, ROOM};
use std::arch::asm;
use std::ffi::c_void;
use std::hint::black_box;

const STACK: usize = 64 * 1024;
const PATTERN: u8 = 0xA5;
/// The most stack that a reading call may take below its caller, in bytes: the
/// boards that the library goes on have little.
const MOST: usize = 512;
/// The length of the input, in phrases of some bytes.
const PHRASES: u64 = 4_000;

/// A call and what it is made with.
struct Call<'a> {
    kind: Kind,
    state: State,
    settings: Settings,
    /// The input, or the list of records or letters.
    input: &'a [u8],
    out: &'a mut [u8],
}

#[derive(Clone, Copy)]
enum Kind {
    Nothing,
    Start,
    Read,
    Slot,
    Write,
}

/// Prints the table.
pub fn print() -> Result<(), Problem> {
    let [start, read, slot, write] = measure();
    println!("| Call of the proved reader | Stack below the caller, bytes |");
    println!("|---|---:|");
    println!("| start | {start} |");
    println!("| reading call, the deepest | {read} |");
    println!("| what stands in a range of columns, the deepest | {slot} |");
    println!("| writing a card, the deepest | {write} |");
    Ok(())
}

/// Fails where a reading call goes deeper than it may; else says how deep.
pub fn watch() -> Result<usize, Problem> {
    let [_, read, ..] = measure();
    match read <= MOST {
        true => Ok(read),
        false => Err(format!(
            "a reading call takes {read} bytes of stack; {MOST} are the limit"
        )),
    }
}

/// The depth of a start, of the deepest reading call on inputs of every
/// command, with pieces of every length that is measured, of the deepest
/// question on the lists that are measured, and of the deepest writing of the
/// cards that are.
fn measure() -> [usize; 4] {
    let mut stack = vec![PATTERN; STACK];
    let mut call = Call {
        kind: Kind::Nothing,
        state: State::start(&Settings::default()).1,
        settings: Settings::default(),
        input: &[],
        out: &mut [],
    };
    let caller = depth(&mut stack, &mut call);
    call.kind = Kind::Start;
    let start = depth(&mut stack, &mut call);
    let input = generate::input(&mut Random::new(1), PHRASES);
    let mut deepest = caller;
    for resolution in RESOLUTIONS {
        for auto_feed in [0, 1] {
            let settings = Settings {
                resolution,
                auto_feed,
                ..Settings::default()
            };
            for piece in PIECES {
                deepest = deepest_reading(&mut stack, &settings, &input, piece).max(deepest);
            }
        }
    }
    let slot = deepest_question(&mut stack);
    let write = deepest_writing(&mut stack);
    [start, deepest, slot, write].map(|depth| depth - caller)
}

/// The depth of the deepest reading call on an input in pieces.
fn deepest_reading(stack: &mut [u8], settings: &Settings, input: &[u8], piece: usize) -> usize {
    let mut out = vec![0; piece * ROOM];
    let mut state = State::start(settings).1;
    let mut deepest = 0;
    for input in input.chunks(piece) {
        let mut call = Call {
            kind: Kind::Read,
            state,
            settings: *settings,
            input,
            out: &mut out,
        };
        deepest = depth(stack, &mut call).max(deepest);
        state = call.state;
    }
    deepest
}

/// The depth of the deepest question.
fn deepest_question(stack: &mut [u8]) -> usize {
    let lists = slots::lists().into_iter();
    let depths = lists.map(|list| {
        let records = list.bytes();
        let mut call = Call {
            kind: Kind::Slot,
            state: State::start(&Settings::default()).1,
            settings: Settings::default(),
            input: &records,
            out: &mut [],
        };
        depth(stack, &mut call)
    });
    depths.max().unwrap_or(0)
}

/// The depth of the deepest writing of a card.
fn deepest_writing(stack: &mut [u8]) -> usize {
    let depths = cards::CARDS.map(|card| {
        let (letters, mut out) = (card.bytes(), card.room());
        let mut call = Call {
            kind: Kind::Write,
            state: State::start(&Settings::default()).1,
            settings: Settings::default(),
            input: &letters,
            out: &mut out,
        };
        depth(stack, &mut call)
    });
    depths.into_iter().max().unwrap_or(0)
}

/// How deep a call goes into the stack, in whole words of it.
fn depth(stack: &mut [u8], call: &mut Call) -> usize {
    stack.fill(PATTERN);
    let call: *mut Call = call;
    // SAFETY: the stack is long enough for `perform`, and aligned as its
    // callers must; r12 is kept by what is called, so that the stack comes
    // back; `perform` is the only one that looks at the call meanwhile.
    unsafe {
        let top = stack.as_mut_ptr().add(STACK & !15);
        asm!(
            "mov r12, rsp",
            "mov rsp, {top}",
            "call {perform}",
            "mov rsp, r12",
            top = in(reg) top.sub(top as usize % 16),
            perform = sym perform,
            in("rdi") call.cast::<c_void>(),
            out("r12") _,
            clobber_abi("C"),
        );
    }
    let untouched = stack.iter().take_while(|&&byte| byte == PATTERN).count();
    (STACK - untouched).next_multiple_of(8)
}

/// Makes the call that is pointed to.
extern "C" fn perform(call: *mut c_void) {
    // SAFETY: `depth` passes a pointer to a call that it alone holds. The
    // pointers are to whole values and good for the lengths passed with them.
    unsafe {
        let call = &mut *call.cast::<Call>();
        let mut counts = Counts {
            read: 0,
            written: 0,
        };
        let mut part = Part {
            offset: 0,
            length: 0,
        };
        let answer = match call.kind {
            Kind::Nothing => 0,
            Kind::Start => escp_start(&mut call.state, &call.settings),
            Kind::Slot => escp_slot(call.input.as_ptr(), call.input.len(), 0, 0, &mut part),
            Kind::Write => escp_write(
                call.input.as_ptr(),
                call.input.len(),
                call.out.as_mut_ptr(),
                call.out.len(),
                &mut counts.written,
            ),
            Kind::Read => escp_read(
                &mut call.state,
                call.input.as_ptr(),
                call.input.len(),
                usize::MAX,
                call.out.as_mut_ptr(),
                call.out.len(),
                &mut counts,
            ),
        };
        // Looked at afterwards, so that no call takes this one's frame over.
        black_box(answer);
    }
}
