//! One list of calls, from a seed.

use oracle::generate::{self, Source};
use oracle::schur::{Correspondence, Rig};

use crate::inputs::{self, MOST_BLOCKS};

/// A call of `add`: what the block is made of, and the damping.
pub struct Add {
    pub rig: Rig,
    pub correspondence: Correspondence,
    pub damping: f64,
    /// Where no block is made, one of +0 everywhere is taken.
    pub zeros_for_none: bool,
}

/// Calls of `add`, and what is asked at the end.
pub struct List {
    pub adds: Vec<Add>,
    /// The list's damping, or one that row 3 refuses.
    pub last_damping: f64,
    pub step: [f64; 5],
    pub point_damping_norm: f64,
}

impl List {
    /// Seed and case alone decide it. The first is longer than a system holds.
    pub fn of(seed: u64, case: u64) -> Self {
        let mut source = Source::new(Source::new(seed ^ 0x4C49_5354).next_bits());
        source = Source::new(Source::new(source.next_bits().wrapping_add(case)).next_bits());
        let count = match source.below(32) {
            _ if case == 0 => 2 * usize::from(MOST_BLOCKS),
            0 => 0,
            1 => 20 + source.below(60),
            _ => 1 + source.below(10),
        };
        let damping = match source.below(8) {
            0 => source.power(),
            1 => source.finite().abs(),
            _ => generate::damping(&mut source),
        };
        let adds = adds(&mut source, count, damping);
        let last_damping = if case != 0 && source.once_in(8) {
            inputs::bad_damping(&mut source)
        } else {
            damping
        };
        Self {
            adds,
            last_damping,
            step: source.numbers(),
            point_damping_norm: inputs::number(&mut source),
        }
    }
}

/// Calls with correspondences of two plates, and of none, in any order.
fn adds(source: &mut Source, count: usize, damping: f64) -> Vec<Add> {
    let problems = [0; 2].map(|_| generate::any_problem(source, count));
    let add = |index| {
        let (rig, correspondence) = match source.below(8) {
            0..=3 => (problems[0].rig, problems[0].correspondence(index)),
            4..=6 => (problems[1].rig, problems[1].correspondence(index)),
            _ => inputs::correspondence(source),
        };
        let damping = if source.once_in(6) {
            inputs::bad_damping(source)
        } else {
            damping
        };
        Add {
            rig,
            correspondence,
            damping,
            zeros_for_none: source.once_in(2),
        }
    };
    (0..count).map(add).collect()
}
