//! Lists of calls of `add`, from a new system on. Both sides make their own
//! blocks and carry their own system from call to call; every figure is compared
//! after every call, and so is what is asked of the system and of each block at
//! the end.

mod list;
mod tally;

use std::thread;

use crate::check::{Expected, call};
use crate::function::{Answer, Function};
use crate::functions as f;
use crate::input::Input;
use crate::options::Options;
use crate::run::{ENOUGH, report};
use crate::tally::First;

use list::{Add, List};
use tally::Tally;

/// How the lists are asked for and printed.
pub const NAME: &str = "lists";

/// The patterns of the arguments that a call is given.
type Given = Vec<Vec<u64>>;

/// The same call on both sides, with what each side has.
#[derive(Clone)]
struct Pair {
    port: Given,
    oracle: Given,
}

impl Pair {
    /// The same on both sides.
    fn of(arguments: &[&[f64]]) -> Self {
        let given = Input::of(arguments).0;
        Self {
            port: given.clone(),
            oracle: given,
        }
    }

    /// With further arguments behind.
    fn with(&self, more: &Self) -> Self {
        Self {
            port: [&self.port[..], &more.port].concat(),
            oracle: [&self.oracle[..], &more.oracle].concat(),
        }
    }
}

/// A call that differs: the function, and the port's side of the call.
struct Differs(&'static Function, Input);

/// Both results, or none beside a refusal; an error where the sides differ.
fn both(
    function: &'static Function,
    given: Pair,
    tally: &mut Tally,
) -> Result<Option<Pair>, Differs> {
    let input = |arguments: Given| {
        let mut input = Input(arguments);
        input.add_rooms(function.arguments);
        input
    };
    let ours = input(given.port);
    let (port, change) = call(function, &ours);
    let oracle = (function.oracle)(&input(given.oracle));
    tally.count(function, &oracle);
    if change.is_some() || !port.same(&oracle, function.arguments) {
        return Err(Differs(function, ours));
    }
    Ok(match (port, oracle) {
        (Answer::Result(port), Answer::Result(oracle)) => Some(Pair { port, oracle }),
        _ => None,
    })
}

/// Walks a list on both sides.
fn walk(list: &List, tally: &mut Tally) -> Result<(), Differs> {
    let contents = Pair::of(&[&[0.0; 45]]).with(&Pair {
        port: vec![vec![0; 3]],
        oracle: vec![vec![0; 3]],
    });
    let new = both(&f::system_new::FUNCTION, contents, tally)?;
    let mut system = new.expect("lengths that fit");
    let mut blocks = Vec::new();
    for add in &list.adds {
        let Some(block) = made(add, tally)? else {
            continue;
        };
        let given = system.with(&block).with(&Pair::of(&[&[add.damping]]));
        if let Some(next) = both(&f::system_add::FUNCTION, given, tally)? {
            system = next;
        }
        blocks.push(block);
    }
    ask(list, system, &blocks, tally)
}

/// The block of a call. Where the block maker refuses it is +0 everywhere, or
/// the call is left out.
fn made(add: &Add, tally: &mut Tally) -> Result<Option<Pair>, Differs> {
    let given = Pair::of(&[&add.rig.numbers(), &add.correspondence.numbers()]);
    let block = both(&f::linearize_point::FUNCTION, given, tally)?;
    let zeros = add.zeros_for_none.then(|| Pair::of(&[&[0.0; 59]]));
    Ok(block.or(zeros))
}

/// What is asked at the end of the system and of each block.
fn ask(list: &List, system: Pair, blocks: &[Pair], tally: &mut Tally) -> Result<(), Differs> {
    let damping = Pair::of(&[&[list.last_damping]]);
    let finished = both(
        &f::system_finish_damping::FUNCTION,
        system.with(&damping),
        tally,
    )?;
    let system = finished.unwrap_or(system);
    both(&f::system_is_valid::FUNCTION, system.clone(), tally)?;
    both(
        &f::system_scaled_gradient_inf_norm::FUNCTION,
        system.clone(),
        tally,
    )?;
    let step = Pair::of(&[&list.step, &[list.last_damping], &[list.point_damping_norm]]);
    both(
        &f::system_predicted_reduction::FUNCTION,
        system.with(&step),
        tally,
    )?;
    let step = Pair::of(&[&[list.last_damping], &list.step]);
    for block in blocks {
        both(
            &f::point_step_with_damping_norm::FUNCTION,
            block.with(&step),
            tally,
        )?;
    }
    Ok(())
}

/// Compares all lists, prints their line, and says whether all was the same.
pub fn run(options: &Options) -> bool {
    let tally = over_threads(options);
    println!("{NAME}: {tally}, differences {}", tally.differences);
    if let Some((function, first)) = &tally.first {
        println!("  in list {}, a call of {}:", first.case, function.name);
        report(function, options, first);
    }
    let mut missing = Vec::new();
    if options.cases >= ENOUGH {
        missing = tally.never_seen();
    }
    for answer in &missing {
        println!("  never came up: {answer}");
    }
    tally.differences == 0 && missing.is_empty()
}

fn over_threads(options: &Options) -> Tally {
    thread::scope(|scope| {
        let share = |thread| move || some_lists(options, thread);
        let handles: Vec<_> = (0..options.threads)
            .map(|thread| scope.spawn(share(thread)))
            .collect();
        let mut tally = Tally::default();
        for handle in handles {
            tally.merge(handle.join().expect("no list panics"));
        }
        tally
    })
}

/// One thread's share: every so manieth list.
fn some_lists(options: &Options, thread: u64) -> Tally {
    let mut tally = Tally::default();
    let mut case = thread;
    while case < options.cases {
        tally.lists += 1;
        let list = List::of(options.seed, case);
        if let Err(Differs(function, input)) = walk(&list, &mut tally) {
            let expected = Expected::Oracle;
            tally.differs(
                function,
                First {
                    case,
                    input,
                    expected,
                },
            );
        }
        case += options.threads;
    }
    tally
}

#[cfg(test)]
mod tests;
