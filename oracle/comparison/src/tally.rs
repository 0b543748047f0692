//! What the cases of one function gave.

use std::collections::BTreeMap;
use std::fmt;

use crate::check::Expected;
use crate::function::{Answer, Function};
use crate::input::Input;

/// The first case, by its number, that differs.
#[derive(Clone, Debug)]
pub struct First {
    pub case: u64,
    pub input: Input,
    pub expected: Expected,
}

/// Counts by the oracle's answers, and what differs.
#[derive(Clone, Debug, Default)]
pub struct Tally {
    pub results: u64,
    pub refused: BTreeMap<u8, u64>,
    pub ruled: u64,
    pub differences: u64,
    pub first: Option<First>,
}

impl Tally {
    pub fn cases(&self) -> u64 {
        self.results + self.refused.values().sum::<u64>()
    }

    /// Counts an expected answer.
    pub fn count(&mut self, answer: &Answer) {
        match answer {
            Answer::Result(_) => self.results += 1,
            Answer::Refused(refusal) => *self.refused.entry(refusal.number).or_default() += 1,
        }
    }

    /// Counts a difference; the one with the lowest case stays.
    pub fn differs(&mut self, first: First) {
        self.differences += 1;
        self.keep(first);
    }

    fn keep(&mut self, first: First) {
        if self
            .first
            .as_ref()
            .is_none_or(|kept| first.case < kept.case)
        {
            self.first = Some(first);
        }
    }

    /// Takes another tally in. The order does not matter.
    pub fn merge(&mut self, other: Self) {
        self.results += other.results;
        for (row, count) in other.refused {
            *self.refused.entry(row).or_default() += count;
        }
        self.ruled += other.ruled;
        self.differences += other.differences;
        if let Some(first) = other.first {
            self.keep(first);
        }
    }

    /// What a function can answer, and no case did.
    pub fn never_seen(&self, function: &Function) -> Vec<String> {
        let rows = function
            .rows
            .iter()
            .filter(|row| !self.refused.contains_key(row));
        let mut missing: Vec<_> = rows.map(|row| format!("refusal {row}")).collect();
        if self.results == 0 {
            missing.push(String::from("a result"));
        }
        if function.plain.is_some() && self.ruled == 0 {
            missing.push(String::from("a case for the rule of zeros"));
        }
        missing
    }
}

impl fmt::Display for Tally {
    fn fmt(&self, f: &mut fmt::Formatter<'_>) -> fmt::Result {
        write!(
            f,
            "{} cases, {} results, refused",
            self.cases(),
            self.results
        )?;
        if self.refused.is_empty() {
            write!(f, " none")?;
        }
        for (row, count) in &self.refused {
            write!(f, " {row}:{count}")?;
        }
        write!(f, ", zeros by the rule {}", self.ruled)
    }
}
