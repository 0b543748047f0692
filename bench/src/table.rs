//! The table of all calls, sizes and dampings, as markdown.

use crate::calls::{CALLS, Call};
use crate::clock::Budget;
use crate::problem::{Problem, case};

const SIZES: [usize; 4] = [100, 1_000, 10_000, 65_535];
const DAMPINGS: [f64; 2] = [0.0, 1e-4];

pub fn print(budget: Budget) {
    println!("| call | damping | n = 100 | 1,000 | 10,000 | 65,535 |");
    println!("|---|---|---|---|---|---|");
    let cases = DAMPINGS.map(|damping| SIZES.map(|n| case(n, damping)));
    let problems = cases.each_ref().map(|row| row.each_ref().map(Problem::new));
    for call in &CALLS {
        for (row, damping) in problems.iter().zip(DAMPINGS) {
            if !call.damped && damping != DAMPINGS[0] {
                continue;
            }
            let word = if call.damped {
                format!("{damping}")
            } else {
                "any".to_owned()
            };
            print!("| {} | {word} |", call.name);
            for problem in row {
                let pair = (call.time)(problem, budget);
                let (port, rust) = (figure(pair.port), figure(pair.rust));
                print!(" {port} / {rust} = {:.2} |", pair.ratio());
            }
            println!();
        }
    }
}

/// One call at one size and damping, with a digit more than the table has.
pub fn only(name: &str, points: &str, damping: &str, budget: Budget) -> Result<(), String> {
    let Some(call) = CALLS.iter().find(|call| plain(call) == name) else {
        let names = CALLS.each_ref().map(plain).join("`, `");
        return Err(format!("no call `{name}`: there are `{names}`"));
    };
    let n = points.parse().unwrap_or(0);
    if !(5..=65_535).contains(&n) {
        return Err("POINTS is a whole number from 5 to 65535".to_owned());
    }
    let d = damping.parse().unwrap_or(f64::NAN);
    if !(0.0..=f64::MAX).contains(&d) {
        return Err("DAMPING is a finite number from 0 on".to_owned());
    }
    let case = case(n, d);
    let pair = (call.time)(&Problem::new(&case), budget);
    let (port, rust, ratio) = (pair.port, pair.rust, pair.ratio());
    println!("{name} n {points} damping {damping}: {port:.1} / {rust:.1} = {ratio:.3}");
    Ok(())
}

/// A call's name as one types it.
fn plain(call: &Call) -> &'static str {
    call.name.trim_matches('`')
}

/// Three figures or so.
fn figure(nanoseconds: f64) -> String {
    let places = if nanoseconds < 100.0 { 1 } else { 0 };
    format!("{nanoseconds:.places$}")
}
