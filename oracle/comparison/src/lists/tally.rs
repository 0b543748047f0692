//! What the lists gave.

use std::collections::BTreeMap;
use std::fmt;

use crate::function::{Answer, Function};
use crate::functions as f;
use crate::tally::First;

/// Calls of one function, by the oracle's answers.
#[derive(Clone, Debug, Default)]
struct Calls {
    results: u64,
    refused: BTreeMap<u8, u64>,
}

#[derive(Default)]
pub struct Tally {
    pub lists: u64,
    calls: BTreeMap<&'static str, Calls>,
    valid: u64,
    pub differences: u64,
    /// The first list, by its number, that differs, with the call.
    pub first: Option<(&'static Function, First)>,
}

impl Tally {
    pub fn count(&mut self, function: &Function, answer: &Answer) {
        let calls = self.calls.entry(function.name).or_default();
        match answer {
            Answer::Refused(refusal) => *calls.refused.entry(refusal.number).or_default() += 1,
            Answer::Result(results) => {
                calls.results += 1;
                let asked = function.name == f::system_is_valid::FUNCTION.name;
                self.valid += u64::from(asked && results[0] == [1]);
            }
        }
    }

    /// Counts a difference; the one of the lowest list stays.
    pub fn differs(&mut self, function: &'static Function, first: First) {
        self.differences += 1;
        self.keep(function, first);
    }

    fn keep(&mut self, function: &'static Function, first: First) {
        let lower = |kept: &(_, First)| first.case < kept.1.case;
        if self.first.as_ref().is_none_or(lower) {
            self.first = Some((function, first));
        }
    }

    /// Takes another tally in. The order does not matter.
    pub fn merge(&mut self, other: Self) {
        self.lists += other.lists;
        for (name, calls) in other.calls {
            let sum = self.calls.entry(name).or_default();
            sum.results += calls.results;
            for (row, count) in calls.refused {
                *sum.refused.entry(row).or_default() += count;
            }
        }
        self.valid += other.valid;
        self.differences += other.differences;
        if let Some((function, first)) = other.first {
            self.keep(function, first);
        }
    }

    fn calls(&self, function: &Function) -> Calls {
        self.calls.get(function.name).cloned().unwrap_or_default()
    }

    /// What lists can show, and these did not.
    pub fn never_seen(&self) -> Vec<String> {
        let mut missing = Vec::new();
        for (function, rows) in [
            (&f::linearize_point::FUNCTION, &[4, 9][..]),
            (&f::system_add::FUNCTION, &[3, 13]),
            (&f::system_finish_damping::FUNCTION, &[3]),
            (&f::point_step_with_damping_norm::FUNCTION, &[3, 10]),
        ] {
            let calls = self.calls(function);
            let unseen = rows.iter().filter(|row| !calls.refused.contains_key(row));
            missing.extend(unseen.map(|row| format!("refusal {row} of {}", function.name)));
            if calls.results == 0 {
                missing.push(format!("a result of {}", function.name));
            }
        }
        if self.valid == 0 || self.valid == self.lists {
            missing.push(String::from("a system that is valid, or one that is not"));
        }
        missing
    }
}

impl fmt::Display for Tally {
    fn fmt(&self, f: &mut fmt::Formatter<'_>) -> fmt::Result {
        write!(f, "{} lists, {} valid", self.lists, self.valid)?;
        for (name, calls) in &self.calls {
            write!(f, "; {name} {} results", calls.results)?;
            for (row, count) in &calls.refused {
                write!(f, " {row}:{count}")?;
            }
        }
        Ok(())
    }
}
