//! The port beside the oracle, on the same seeded inputs: every figure bit for
//! bit, every refusal with view and index, every byte of lent memory. Prints
//! one line a function; the exit status is 1 if anything differs.

mod check;
mod function;
mod functions;
mod input;
mod inputs;
mod lengths;
mod lists;
mod memory;
mod options;
mod run;
mod sample;
mod shrink;
mod systems;
mod tally;

use std::env;
use std::process::ExitCode;

use options::Options;

fn main() -> ExitCode {
    let done = Options::parse(env::args().skip(1)).and_then(|options| work(&options));
    match done {
        Ok(true) => ExitCode::SUCCESS,
        Ok(false) => ExitCode::from(1),
        Err(message) => {
            eprintln!("compare: {message}");
            ExitCode::from(2)
        }
    }
}

/// True if nothing differs. A sample compares nothing.
fn work(options: &Options) -> Result<bool, String> {
    let mut same = true;
    for function in &options.functions {
        match &options.sample {
            Some(folder) => match functions::sampled(function) {
                Some(function) => sample::write(function, options.seed, options.lines, folder)?,
                None => println!("{}: no sample, its lines have no one length", function.name),
            },
            None => same &= run::run(function, options),
        }
    }
    if options.lists && options.sample.is_none() {
        same &= lists::run(options);
    }
    Ok(same)
}
