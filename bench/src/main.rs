//! The port beside the original Rust on the same problems, in one process.
//! Tables as markdown on standard output; `../run` has the options.

mod calls;
mod clock;
mod count;
mod problem;
mod root;
mod table;

use std::process::ExitCode;

use clock::Budget;

fn main() -> ExitCode {
    let words: Vec<String> = std::env::args().skip(1).collect();
    let words: Vec<&str> = words.iter().map(String::as_str).collect();
    match words[..] {
        ["root"] => root::print(),
        ["table", budget] => table::print(Budget::from_word(budget)),
        ["only", call, points, damping, budget] => {
            if let Err(message) = table::only(call, points, damping, Budget::from_word(budget)) {
                eprintln!("bench: {message}");
                return ExitCode::from(2);
            }
        }
        ["count", side, points, damping] => count::run(side, points, damping),
        ["repeat", side, points, damping] => count::repeat(side, points, damping),
        _ => {
            eprintln!("bench: called by bench/run, which has the help text");
            return ExitCode::from(2);
        }
    }
    ExitCode::SUCCESS
}
