//! All cases of one function, over several threads. Which thread takes a case
//! changes nothing that is printed.

use std::thread;

use crate::check::{Difference, Expected, check};
use crate::function::{Answer, Function};
use crate::input::{Input, Shown, digits};
use crate::lengths;
use crate::options::Options;
use crate::shrink::shrink;
use crate::tally::{First, Tally};

/// One input in so many is tried with wrong lengths too.
const LENGTHS_ONCE_IN: u64 = 100;

/// From so many cases on, each answer that a function has must come up.
pub const ENOUGH: u64 = 1000;

/// Compares one function, prints its line, and says whether all was the same.
pub fn run(function: &Function, options: &Options) -> bool {
    let tally = over_threads(function, options);
    let differences = tally.differences;
    println!("{}: {tally}, differences {differences}", function.name);
    if let Some(first) = &tally.first {
        report(function, options, first);
    }
    let mut missing = Vec::new();
    if options.cases >= ENOUGH {
        missing = tally.never_seen(function);
    }
    for answer in &missing {
        println!("  never came up: {answer}");
    }
    differences == 0 && missing.is_empty()
}

/// The tally of all cases.
fn over_threads(function: &Function, options: &Options) -> Tally {
    let threads = options.threads;
    thread::scope(|scope| {
        let share = |thread| move || some_cases(function, options, thread);
        let handles: Vec<_> = (0..threads).map(|i| scope.spawn(share(i))).collect();
        let mut tally = Tally::default();
        for handle in handles {
            tally.merge(handle.join().expect("no case panics"));
        }
        tally
    })
}

/// One thread's share: every so manieth case.
fn some_cases(function: &Function, options: &Options, thread: u64) -> Tally {
    let mut tally = Tally::default();
    let count = function.count(options.cases);
    let mut case = thread;
    while case < count {
        let input = function.input(options.seed, case);
        if case.is_multiple_of(LENGTHS_ONCE_IN) {
            wrong_lengths(function, &input, count + case, &mut tally);
        }
        one_case(function, input, case, &mut tally);
        case += options.threads;
    }
    tally
}

fn one_case(function: &Function, input: Input, case: u64, tally: &mut Tally) {
    let answer = (function.oracle)(&input);
    tally.count(&answer);
    tally.ruled += u64::from(function.is_ruled(&input, &answer));
    if check(function, &input, &answer).is_some() {
        tally.differs(First {
            case,
            input,
            expected: Expected::Oracle,
        });
    }
}

/// The input with each wrong length. Numbered behind all other cases.
fn wrong_lengths(function: &Function, input: &Input, case: u64, tally: &mut Tally) {
    for input in lengths::wrong(function, input) {
        let answer = Answer::row(1);
        tally.count(&answer);
        if check(function, &input, &answer).is_some() {
            tally.differs(First {
                case,
                input,
                expected: Expected::Lengths,
            });
        }
    }
}

/// Prints the first difference on the smallest input that was found.
pub fn report(function: &Function, options: &Options, first: &First) {
    let First {
        case,
        input,
        expected,
    } = first;
    println!(
        "  case {case} of seed {} differs; smallest input found:",
        options.seed
    );
    let answer = expected.answer(function, input);
    let Some(difference) = check(function, input, &answer) else {
        println!(
            "  the same call does not differ again: its answer depends on more than its input"
        );
        return;
    };
    let (input, difference) = shrink(function, *expected, input.clone(), difference);
    print!("{}", Shown(function.arguments, &input));
    print_answers(function, &difference);
}

fn print_answers(function: &Function, difference: &Difference) {
    println!("  port   = {}", text(function, &difference.port));
    println!("  oracle = {}", text(function, &difference.oracle));
    if let Some(change) = &difference.change {
        println!("  memory: {change}");
    }
}

/// An answer as patterns, or as `refused` with number, view and index.
pub fn text(function: &Function, answer: &Answer) -> String {
    match answer {
        Answer::Refused(refusal) => refusal.to_string(),
        Answer::Result(lists) => {
            let kinds = function.arguments.iter().filter(|a| a.is_written());
            let texts: Vec<_> = kinds
                .zip(lists)
                .map(|(argument, entries)| digits(argument.kind, entries))
                .collect();
            texts.join(" ")
        }
    }
}

#[cfg(test)]
mod tests;
