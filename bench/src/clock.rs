//! The best of several runs, both sides in turn, so that a slow spell of the
//! machine meets both.

use std::time::{Duration, Instant};

/// How many runs, and the least that one run lasts.
#[derive(Clone, Copy)]
pub struct Budget {
    runs: usize,
    least: Duration,
}

impl Budget {
    pub fn from_word(word: &str) -> Self {
        match word {
            "short" => Self::new(3, 1),
            _ => Self::new(25, 4),
        }
    }

    const fn new(runs: usize, milliseconds: u64) -> Self {
        Self {
            runs,
            least: Duration::from_millis(milliseconds),
        }
    }
}

/// ns per call of the Rust and of the port.
#[derive(Clone, Copy)]
pub struct Pair {
    pub rust: f64,
    pub port: f64,
}

impl Pair {
    pub fn ratio(self) -> f64 {
        self.port / self.rust
    }
}

/// Times two functions that each make `calls` calls.
pub fn pair(budget: Budget, calls: usize, mut rust: impl FnMut(), mut port: impl FnMut()) -> Pair {
    let rounds = rounds(budget, &mut rust).max(rounds(budget, &mut port));
    let mut best = Pair {
        rust: f64::INFINITY,
        port: f64::INFINITY,
    };
    let each = (rounds * calls) as f64;
    for _ in 0..budget.runs {
        best.rust = best.rust.min(nanoseconds(rounds, &mut rust) / each);
        best.port = best.port.min(nanoseconds(rounds, &mut port) / each);
    }
    best
}

/// How often a function is repeated to last long enough. It also warms up.
fn rounds(budget: Budget, work: &mut impl FnMut()) -> usize {
    let mut rounds = 1;
    while nanoseconds(rounds, work) < budget.least.as_nanos() as f64 {
        rounds *= 2;
    }
    rounds
}

fn nanoseconds(rounds: usize, work: &mut impl FnMut()) -> f64 {
    let start = Instant::now();
    for _ in 0..rounds {
        work();
    }
    start.elapsed().as_nanos() as f64
}
