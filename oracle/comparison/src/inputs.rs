//! Seeded inputs for single calls: of every size, with specials in every
//! place, and close to where an answer turns into a refusal.

mod equations;
mod matrices;
mod sights;
mod steps;
mod systems;

use oracle::generate::{self, Source};

use crate::function::Walk;
use crate::input::Input;

pub use equations::equations;
pub use matrices::{inverse, lost_floor, matrix, no_scale};
pub use sights::sight;
pub use steps::{MANY_POINTS, five_points, pose_step, problem};
pub use systems::{MOST_BLOCKS, block, correspondence, system};

/// 64ε: depths and pivots at or below it are refused.
const LIMIT: f64 = 64.0 * f64::EPSILON;

const MANTISSA: u64 = (1 << 52) - 1;

/// Every exponent field with both signs and eight mantissas.
pub const EVERY_EXPONENT: Walk = Walk {
    count: 2048 * 2 * 8,
    input: |case, source| {
        let mantissa = match case % 8 {
            0 => 0,
            1 => 1,
            2 => MANTISSA,
            3 => 1 << 51,
            4 => (1 << 51) - 1,
            5 => source.next_bits() & source.next_bits() & source.next_bits() & MANTISSA,
            _ => source.next_bits() & MANTISSA,
        };
        let sign = case / 8 % 2;
        Input(vec![vec![sign << 63 | (case / 16) << 52 | mantissa]])
    },
};

/// A number of any kind.
pub fn number(source: &mut Source) -> f64 {
    match source.below(16) {
        0..=3 => source.pattern(),
        4..=7 => source.special(),
        8..=11 => {
            let power = source.power();
            nudged(source, power)
        }
        12 => f64::from_bits(source.next_bits() | 0x7FF << 52),
        _ => source.mixed(),
    }
}

/// The value, or one up to two neighbors away.
fn nudged(source: &mut Source, value: f64) -> f64 {
    match source.below(8) {
        0 => value.next_up(),
        1 => value.next_down(),
        2 => value.next_up().next_up(),
        3 => value.next_down().next_down(),
        _ => value,
    }
}

/// Either zero.
fn zero(source: &mut Source) -> f64 {
    if source.once_in(2) { 0.0 } else { -0.0 }
}

/// Close to a square of a number with few digits, or to the square of what
/// lies halfway between two neighbors: there the root is hardest to round.
pub fn near_square(source: &mut Source) -> f64 {
    let exponent = 1023 - 537 + source.below(2 * 537) as u64;
    let mut root = exponent << 52 | source.next_bits() & MANTISSA;
    let product = match source.below(3) {
        0 => {
            root &= !((1 << 26) - 1);
            f64::from_bits(root) * f64::from_bits(root)
        }
        1 => f64::from_bits(root) * f64::from_bits(root),
        _ => f64::from_bits(root) * f64::from_bits(root + 1),
    };
    nudged(source, product)
}

/// Two numbers to choose from: often zeros, often alike in size, often a NaN.
pub fn pair(source: &mut Source) -> [f64; 2] {
    let x = number(source);
    match source.below(8) {
        0 => [zero(source), zero(source)],
        1 => [x, -x],
        2 => [x, nudged(source, x)],
        3 => [x, f64::NAN],
        4 => [f64::NAN, x],
        5 => [zero(source), x],
        _ => [x, number(source)],
    }
}

/// A damping that row 3 refuses.
pub fn bad_damping(source: &mut Source) -> f64 {
    match source.below(4) {
        0 => -source.moderate().abs(),
        1 => -source.power(),
        _ => [f64::NAN, f64::INFINITY, f64::NEG_INFINITY][source.below(3)],
    }
}

/// A damping of any kind: one in four is refused by row 3.
pub fn damping(source: &mut Source) -> f64 {
    match source.below(16) {
        0..=3 => generate::damping(source),
        4 | 5 => zero(source),
        6 => source.power(),
        7 | 8 => source.between(0.0, 1.0),
        9 => source.unit() * f64::MIN_POSITIVE,
        10 => source.unit() * f64::MAX,
        11 => -source.moderate().abs(),
        12 => -source.power(),
        13 => [f64::NAN, f64::INFINITY, f64::NEG_INFINITY][source.below(3)],
        14 => source.special(),
        _ => number(source),
    }
}

/// The sum of the outer products of the rows, `M` = `N` times `N` numbers.
fn gram<const N: usize, const M: usize>(rows: &[[f64; N]]) -> [f64; M] {
    let mut sum = [0.0; M];
    for row in rows {
        for (index, entry) in sum.iter_mut().enumerate() {
            *entry += row[index / N] * row[index % N];
        }
    }
    sum
}

/// Rows and columns scaled by the same factors: powers of two, so that little
/// is rounded, or any moderate numbers.
fn scaled<const N: usize, const M: usize>(
    source: &mut Source,
    matrix: [f64; M],
    reach: usize,
) -> [f64; M] {
    let exact = !source.once_in(4);
    let factors: [f64; N] = std::array::from_fn(|_| {
        if exact {
            let exponent = 1023 + source.below(2 * reach + 1) - reach;
            f64::from_bits((exponent as u64) << 52)
        } else {
            source.moderate()
        }
    });
    std::array::from_fn(|index| matrix[index] * factors[index / N] * factors[index % N])
}
