//! What the command line asks for.

use std::path::PathBuf;
use std::thread;

use crate::function::Function;
use crate::functions::ALL;
use crate::lists;

/// As many cases as a run has by default, for each function.
const CASES: u64 = 200_000;

/// As many lines as a sample has by default, for each function's results and
/// for each row that it can refuse with.
const LINES: u64 = 240;

pub struct Options {
    pub cases: u64,
    pub seed: u64,
    pub functions: Vec<&'static Function>,
    /// Lists of calls of `add`, beside the functions.
    pub lists: bool,
    pub sample: Option<PathBuf>,
    pub lines: u64,
    pub threads: u64,
}

impl Options {
    /// From the words behind the program's name.
    pub fn parse(mut words: impl Iterator<Item = String>) -> Result<Self, String> {
        let mut options = Self {
            cases: CASES,
            seed: 1,
            functions: Vec::new(),
            lists: false,
            sample: None,
            lines: LINES,
            threads: thread::available_parallelism().map_or(1, |count| count.get() as u64),
        };
        while let Some(word) = words.next() {
            let mut value = || words.next().ok_or(format!("{word} asks for a value"));
            match word.as_str() {
                "--cases" => options.cases = whole(&word, &value()?)?,
                "--seed" => options.seed = whole(&word, &value()?)?,
                "--function" => options.add(&value()?)?,
                "--sample" => options.sample = Some(PathBuf::from(value()?)),
                "--lines" => options.lines = whole(&word, &value()?)?,
                "--threads" => options.threads = whole(&word, &value()?)?.max(1),
                _ => return Err(format!("{word} is not an option; --help names them")),
            }
        }
        if options.functions.is_empty() && !options.lists {
            options.functions.extend(ALL);
            options.lists = true;
        }
        Ok(options)
    }

    /// A function by its name, or the lists.
    fn add(&mut self, name: &str) -> Result<(), String> {
        if name == lists::NAME {
            self.lists = true;
        } else {
            self.functions.push(named(name)?);
        }
        Ok(())
    }
}

fn whole(option: &str, value: &str) -> Result<u64, String> {
    value
        .parse()
        .map_err(|_| format!("{option} asks for a whole number, not {value}"))
}

fn named(name: &str) -> Result<&'static Function, String> {
    let found = ALL.iter().find(|function| function.name == name);
    found.copied().ok_or_else(|| {
        let names: Vec<_> = ALL.iter().map(|function| function.name).collect();
        let names = names.join(", ");
        format!("no function {name}; there are {names}, {}", lists::NAME)
    })
}
