//! Holds the proved reader and both plain ones against each other on generated
//! lists of calls and arbitrary states, the question what stands in a range of
//! columns on generated lists of records, and the writers of a card on
//! generated lists of letters.

use compare::calls::calls;
use compare::hold::{difference, outcomes, Case, Tally};
use compare::random::Random;
use compare::shortest::shortest;
use compare::{arbitrary, cards, registers, slots, tell, text};
use std::process::ExitCode;

const HELP: &str = "\
compare: holds the proved reader against the plain one, and that against the plain one in runs

    compare                        the gate run
    compare --lists N --states N --slots N --cards N --seed S
                                   so many lists of calls, arbitrary states, lists of records
                                   asked what stands in a range of columns, and cards written
                                   and read back
    compare --replay FILE          one case from a file, with all outcomes
    compare --help                 this text

Without them, N is 400000 lists, 4000000 states, 2000000 slots and 400000 cards, S is 1. A
difference is printed with the shortest input found, which --replay reads, and the exit status is
then 1.
";

const DIFFERENCE: u8 = 1;
const BAD_USAGE: u8 = 2;

/// How much is compared.
#[derive(Clone, PartialEq, Eq, Debug)]
struct Amount {
    lists: u64,
    states: u64,
    slots: u64,
    cards: u64,
    seed: u64,
}

enum Task {
    Help,
    Run(Amount),
    Replay(String),
}

fn main() -> ExitCode {
    let arguments: Vec<String> = std::env::args_os()
        .skip(1)
        .map(|argument| argument.to_string_lossy().into_owned())
        .collect();
    let done = task(&arguments).and_then(|task| match task {
        Task::Help => {
            print!("{HELP}");
            Ok(ExitCode::SUCCESS)
        }
        Task::Run(amount) => Ok(run(&amount)),
        Task::Replay(file) => replay(&file),
    });
    done.unwrap_or_else(|problem| {
        eprintln!("compare: {problem}");
        ExitCode::from(BAD_USAGE)
    })
}

fn task(arguments: &[String]) -> Result<Task, String> {
    let mut amount = Amount {
        lists: 400_000,
        states: 4_000_000,
        slots: 2_000_000,
        cards: 400_000,
        seed: 1,
    };
    let words: Vec<&str> = arguments.iter().map(String::as_str).collect();
    match words.as_slice() {
        ["--help"] => return Ok(Task::Help),
        ["--replay", file] => return Ok(Task::Replay(file.to_string())),
        _ => {}
    }
    let mut words = words.into_iter();
    while let Some(option) = words.next() {
        let number = match option {
            "--lists" => &mut amount.lists,
            "--states" => &mut amount.states,
            "--slots" => &mut amount.slots,
            "--cards" => &mut amount.cards,
            "--seed" => &mut amount.seed,
            _ => return Err(format!("bad argument {option:?}; see compare --help")),
        };
        let word = words.next().unwrap_or_default();
        *number = word
            .parse()
            .map_err(|_| format!("{option} takes a number, not {word:?}"))?;
    }
    Ok(Task::Run(amount))
}

/// Compares lists, states, slots, then cards; prints what was done, or the
/// difference.
fn run(amount: &Amount) -> ExitCode {
    let mut seeds = Random::new(amount.seed);
    let readers = readers(amount, &mut seeds);
    let asked = readers.and_then(|()| questions(amount, &mut seeds));
    match asked.and_then(|()| written(amount, &mut seeds)) {
        Ok(()) => ExitCode::SUCCESS,
        Err(status) => status,
    }
}

/// Lists of calls, then states; the exit status if there is a difference.
fn readers(amount: &Amount, seeds: &mut Random) -> Result<(), ExitCode> {
    let mut tally = Tally::default();
    for list in 1..=amount.lists {
        let calls = calls(&mut Random::new(seeds.number()));
        let case = Case { state: None, calls };
        if difference(&case, &mut tally).is_some() {
            let before = format!("after {} lists without one", list - 1);
            let head = format!("difference in list {list}, {before}");
            return Err(report(&case, &head));
        }
    }
    let mut accepted = 0;
    for state in 1..=amount.states {
        let case = arbitrary::case(&mut Random::new(seeds.number()));
        let plain = case.state.as_ref().and_then(registers::plain);
        accepted += u64::from(plain.is_some_and(|state| state.accepted()));
        if difference(&case, &mut tally).is_some() {
            let before = format!("after {} lists and {}", amount.lists, state - 1);
            let head = format!("difference in state {state}, {before} states without one");
            return Err(report(&case, &head));
        }
    }
    println!(
        "compare: no difference in {} lists of calls and {} states, {accepted} of them accepted; \
         {} calls, {} bytes read",
        amount.lists, amount.states, tally.calls, tally.bytes
    );
    Ok(())
}

/// Lists of records asked what stands in a range of columns; the exit status
/// if there is a difference.
fn questions(amount: &Amount, seeds: &mut Random) -> Result<(), ExitCode> {
    let mut tally = slots::Tally::default();
    for slot in 1..=amount.slots {
        let question = slots::generate::question(&mut Random::new(seeds.number()));
        if slots::difference(&question, &mut tally).is_some() {
            let before = format!("after {} slots without one", slot - 1);
            println!("compare: difference in slot {slot}, {before}");
            return Err(report_question(&question));
        }
    }
    println!(
        "compare: no difference in {} slots, {} of them found and {} refused; {} records",
        amount.slots, tally.found, tally.refused, tally.records
    );
    Ok(())
}

/// Cards written and read back; the exit status if there is a difference.
fn written(amount: &Amount, seeds: &mut Random) -> Result<(), ExitCode> {
    let mut tally = cards::Tally::default();
    for number in 1..=amount.cards {
        let card = cards::generate::card(&mut Random::new(seeds.number()));
        if cards::difference(&card, &mut tally).is_some() {
            let before = format!("after {} cards without one", number - 1);
            println!("compare: difference in card {number}, {before}");
            return Err(report_card(&card));
        }
    }
    println!(
        "compare: no difference in {} cards, {} of them refused; {} letters, {} bytes written and \
         read back",
        amount.cards, tally.refused, tally.letters, tally.bytes
    );
    Ok(())
}

/// Prints the shortest card that differs and what came back.
fn report_card(card: &cards::Card) -> ExitCode {
    let found = |card: &cards::Card| cards::difference(card, &mut cards::Tally::default());
    let short = cards::shortest::shortest(card, &|card| found(card).is_some());
    println!("the shortest list found:\n{}", cards::text::text(&short));
    if let Some(found) = found(&short) {
        print!("{}", cards::text::difference(&found));
    }
    ExitCode::from(DIFFERENCE)
}

/// Prints the shortest list that differs and what came back.
fn report_question(question: &slots::Question) -> ExitCode {
    let differs = |question: &slots::Question| !slots::answers(question).same();
    let short = slots::shortest::shortest(question, &differs);
    println!("the shortest list found:\n{}", slots::text::text(&short));
    print!("{}", slots::text::both(&slots::answers(&short)));
    ExitCode::from(DIFFERENCE)
}

/// Prints the shortest case that differs and what came back.
fn report(case: &Case, head: &str) -> ExitCode {
    let short = shortest(case);
    println!("compare: {head}");
    println!("the shortest input found:\n{}", text::text(&short));
    if let Some(found) = difference(&short, &mut Tally::default()) {
        print!("{}", tell::difference(&found));
    }
    ExitCode::from(DIFFERENCE)
}

/// Runs one case and prints what both readers come back with from each call.
fn replay(file: &str) -> Result<ExitCode, String> {
    let text = std::fs::read_to_string(file).map_err(|error| format!("{file}: {error}"))?;
    let told = |problem| format!("{file}: {problem}");
    if slots::text::is_question(&text) {
        let question = slots::text::question(&text).map_err(told)?;
        return Ok(replay_question(&question));
    }
    if cards::text::is_card(&text) {
        let card = cards::text::card(&text).map_err(told)?;
        return Ok(replay_card(&card));
    }
    let case = text::case(&text).map_err(told)?;
    for (index, (plain, proved)) in outcomes(&case).iter().enumerate() {
        print!("call {}:\n{}", index + 1, tell::both(plain, proved));
    }
    match difference(&case, &mut Tally::default()) {
        None => {
            println!("no difference");
            Ok(ExitCode::SUCCESS)
        }
        Some(found) => {
            print!("difference at {}", tell::difference(&found));
            Ok(ExitCode::from(DIFFERENCE))
        }
    }
}

/// Asks one question and prints what both come back with.
fn replay_question(question: &slots::Question) -> ExitCode {
    let answers = slots::answers(question);
    print!("{}", slots::text::both(&answers));
    if answers.same() {
        println!("no difference");
        return ExitCode::SUCCESS;
    }
    println!("difference");
    ExitCode::from(DIFFERENCE)
}

/// Writes one card, reads it, and prints what both writers come back with.
fn replay_card(card: &cards::Card) -> ExitCode {
    print!("{}", cards::text::both(&cards::answers(card)));
    match cards::difference(card, &mut cards::Tally::default()) {
        None => {
            println!("no difference");
            ExitCode::SUCCESS
        }
        Some(cards::Difference::Written(_)) => {
            println!("difference");
            ExitCode::from(DIFFERENCE)
        }
        Some(found) => {
            print!("difference: {}", cards::text::difference(&found));
            ExitCode::from(DIFFERENCE)
        }
    }
}
