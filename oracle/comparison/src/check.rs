//! One case on both sides.

use pixel_step::Refusal;

use crate::function::{Answer, Function};
use crate::input::Input;
use crate::memory::Memory;

/// What a case has to give.
#[derive(Clone, Copy, Debug, PartialEq, Eq)]
pub enum Expected {
    /// The oracle's answer.
    Oracle,
    /// Row 1, for a length that does not fit.
    Lengths,
}

impl Expected {
    pub fn answer(self, function: &Function, input: &Input) -> Answer {
        match self {
            Self::Oracle => (function.oracle)(input),
            Self::Lengths => Answer::row(1),
        }
    }
}

/// Both answers, where they differ or memory was changed.
#[derive(Clone, Debug)]
pub struct Difference {
    pub port: Answer,
    pub oracle: Answer,
    /// Memory that the call should have left alone.
    pub change: Option<String>,
}

impl Difference {
    /// Of one kind: the same refusals or results on each side, and memory
    /// changed or not. Keeps a difference the same while its input shrinks.
    pub fn alike(&self, other: &Self) -> bool {
        let row = |answer: &Answer| match answer {
            Answer::Result(_) => None,
            Answer::Refused(refusal) => Some((refusal.number, refusal.view)),
        };
        row(&self.port) == row(&other.port)
            && row(&self.oracle) == row(&other.oracle)
            && self.change.is_some() == other.change.is_some()
    }
}

/// The port's answer, and memory that the call should have left alone.
pub fn call(function: &Function, input: &Input) -> (Answer, Option<String>) {
    let mut memory = Memory::new(function.arguments, input);
    let port = match Refusal::from_code(memory.call(function.port)) {
        None => Answer::Result(memory.results()),
        Some(refusal) => Answer::Refused(refusal),
    };
    let change = memory.change(input, matches!(port, Answer::Result(_)));
    (port, change)
}

/// Runs the port and holds its answer and the memory against what is expected.
pub fn check(function: &Function, input: &Input, expected: &Answer) -> Option<Difference> {
    let (port, change) = call(function, input);
    if change.is_none() && port.same(expected, function.arguments) {
        return None;
    }
    Some(Difference {
        port,
        oracle: expected.clone(),
        change,
    })
}
