//! Systems of five equations.

use oracle::generate::{self, Source};

use super::{gram, scaled, zero};

type Equations = ([f64; 25], [f64; 5]);

/// A system of any kind.
pub fn equations(source: &mut Source) -> Equations {
    let (mut a, mut b) = match source.below(12) {
        0..=4 => generate::equations(source),
        5 | 6 => signed_zeros(source),
        7 => (graded(source), source.numbers()),
        8 => (asymmetric(source), source.moderates()),
        9 => (near_singular(source), source.moderates()),
        10 => (indefinite(source), source.moderates()),
        _ => (whole(source), std::array::from_fn(|_| source.small())),
    };
    if source.once_in(10) {
        source.damage_numbers(&mut a);
    }
    if source.once_in(10) {
        source.damage_numbers(&mut b);
    }
    (a, b)
}

/// A sum of squares.
fn definite(source: &mut Source) -> [f64; 25] {
    let rows: [[f64; 5]; 7] = std::array::from_fn(|_| source.moderates());
    gram(&rows)
}

/// Mostly zeros of both signs beside the diagonal and on the right: where a sum
/// of nothing is −0, it shows in the first column and the signs that follow.
fn signed_zeros(source: &mut Source) -> Equations {
    let often = 2 + source.below(4);
    let a = std::array::from_fn(|index| match index % 6 {
        0 => 1.0 + source.below(4) as f64,
        _ if source.once_in(often) => source.small() / 16.0,
        _ => zero(source),
    });
    let b = std::array::from_fn(|_| match source.below(4) {
        0 => source.small(),
        1 => source.moderate(),
        _ => zero(source),
    });
    (a, b)
}

/// Rows and columns of very different size.
fn graded(source: &mut Source) -> [f64; 25] {
    let reach = [20, 200, 500][source.below(3)];
    let matrix = definite(source);
    scaled::<5, 25>(source, matrix, reach)
}

/// Any numbers above the diagonal, which is not read once it is found finite.
fn asymmetric(source: &mut Source) -> [f64; 25] {
    let mut matrix = definite(source);
    let finite = !source.once_in(4);
    for (index, entry) in matrix.iter_mut().enumerate() {
        if index % 5 > index / 5 {
            *entry = if finite {
                source.finite()
            } else {
                source.special()
            };
        }
    }
    matrix
}

/// One row short, with a little on the diagonal: the last pivot is all rounding.
fn near_singular(source: &mut Source) -> [f64; 25] {
    let rows: [[f64; 5]; 4] = std::array::from_fn(|_| source.moderates());
    let mut matrix = gram::<5, 25>(&rows);
    let part = 2.0_f64.powi(-30 - source.below(26) as i32);
    for index in (0..25).step_by(6) {
        matrix[index] += part * matrix[index];
    }
    scaled::<5, 25>(source, matrix, 10)
}

/// A sum of squares with one diagonal entry made smaller, zero or negative.
fn indefinite(source: &mut Source) -> [f64; 25] {
    let mut matrix = definite(source);
    let place = 6 * source.below(5);
    matrix[place] = match source.below(4) {
        0 => zero(source),
        1 => -matrix[place],
        _ => source.unit() * matrix[place],
    };
    matrix
}

/// Small whole numbers, mostly definite, sometimes with a pivot of exactly zero.
fn whole(source: &mut Source) -> [f64; 25] {
    let count = 4 + source.below(4);
    let rows: Vec<[f64; 5]> = (0..count)
        .map(|_| std::array::from_fn(|_| source.below(3) as f64 - 1.0))
        .collect();
    gram(&rows)
}
