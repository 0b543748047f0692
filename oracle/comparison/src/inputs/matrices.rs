//! Matrices of three rows, and packed inverses.

use oracle::generate::{self, Source};
use oracle::point_block;

use super::{LIMIT, gram, nudged, scaled, zero};

/// A matrix of any kind.
pub fn matrix(source: &mut Source) -> [f64; 9] {
    match source.below(12) {
        0..=3 => generate::matrix(source),
        4 => tiny_entry(source),
        5 => near_unit(source),
        6 => near_singular(source),
        7 => lost_floor(source),
        8 => asymmetric(source),
        9 => no_scale(source),
        10 => signed_zeros(source),
        _ => {
            let mut matrix = definite(source);
            source.damage_numbers(&mut matrix);
            matrix
        }
    }
}

/// Six numbers as an inverse, and a matrix: often a factor and what it is of.
pub fn inverse(source: &mut Source) -> ([f64; 6], [f64; 9]) {
    let (mut inverse, matrix) = (source.numbers(), matrix(source));
    if !source.once_in(3) {
        inverse = point_block::new(&matrix, 0.0).unwrap_or(inverse);
    }
    if source.once_in(4) {
        let factor = source.power();
        inverse = inverse.map(|value| value * factor);
    }
    if source.once_in(4) {
        source.damage_numbers(&mut inverse);
    }
    (inverse, matrix)
}

/// A sum of squares with scaled rows and columns.
fn definite(source: &mut Source) -> [f64; 9] {
    let rows: [[f64; 3]; 4] = std::array::from_fn(|_| source.moderates());
    scaled::<3, 9>(source, gram(&rows), 20)
}

fn diagonal(entries: [f64; 3]) -> [f64; 9] {
    std::array::from_fn(|i| if i % 4 == 0 { entries[i / 4] } else { 0.0 })
}

/// A diagonal with one entry about 2^-92 of the others, where a pivot is at
/// its limit.
fn tiny_entry(source: &mut Source) -> [f64; 9] {
    let tiny = 2.0_f64.powi(-80 - source.below(21) as i32);
    let mut entries = [1.0; 3];
    entries[source.below(3)] = nudged(source, tiny);
    let factor = if source.once_in(2) {
        1.0
    } else {
        source.power()
    };
    diagonal(entries).map(|value| value * factor)
}

/// Two unit vectors so close that the second pivot is about 64ε.
fn near_unit(source: &mut Source) -> [f64; 9] {
    let cosine = 1.0 - (56 + source.below(17)) as f64 * f64::EPSILON / 2.0;
    let (low, high) = [(0, 1), (0, 2), (1, 2)][source.below(3)];
    let mut matrix = diagonal([1.0; 3]);
    matrix[3 * low + high] = cosine;
    matrix[3 * high + low] = cosine;
    scaled::<3, 9>(source, matrix, 30)
}

/// Three unit vectors, nearly in a plane: the third pivot is about 64ε.
fn near_singular(source: &mut Source) -> [f64; 9] {
    let (a, b) = (source.between(-0.9, 0.9), source.between(-0.9, 0.9));
    let height = (LIMIT * source.between(0.5, 2.0)).sqrt();
    let columns = [
        [1.0, a, b],
        [0.0, (1.0 - a * a).sqrt(), (1.0 - b * b).sqrt()],
        [0.0, 0.0, height],
    ];
    scaled::<3, 9>(source, gram(&columns), 30)
}

/// A largest entry so small that 64ε of it is lost, beside zeros of both signs.
pub fn lost_floor(source: &mut Source) -> [f64; 9] {
    let mut entries: [f64; 3] = std::array::from_fn(|_| match source.below(4) {
        0 => f64::from_bits(source.next_bits() >> 18),
        1 => -source.moderate().abs(),
        _ => zero(source),
    });
    entries[source.below(3)] = f64::from_bits(source.next_bits() >> (18 + source.below(46)));
    let mut matrix = diagonal(entries);
    if source.once_in(4) {
        source.damage_numbers(&mut matrix);
    }
    matrix
}

/// A sound matrix with opposite numbers added on both sides of the diagonal.
fn asymmetric(source: &mut Source) -> [f64; 9] {
    let mut matrix = definite(source);
    for (low, high) in [(1, 3), (2, 6), (5, 7)] {
        let part = source.between(-2.0, 2.0) * matrix[low];
        matrix[low] += part;
        matrix[high] -= part;
    }
    matrix
}

/// No positive finite largest diagonal entry.
pub fn no_scale(source: &mut Source) -> [f64; 9] {
    let mut matrix = generate::matrix(source);
    let infinite = source.once_in(3);
    for place in [0, 4, 8] {
        matrix[place] = match source.below(4) {
            0 => zero(source),
            1 => f64::NAN,
            2 => -source.power(),
            _ => -source.moderate().abs(),
        };
    }
    if infinite {
        matrix[4 * source.below(3)] = f64::INFINITY;
    }
    matrix
}

/// A positive diagonal between zeros of both signs and small numbers.
fn signed_zeros(source: &mut Source) -> [f64; 9] {
    std::array::from_fn(|index| match (index % 4, source.below(4)) {
        (0, _) => 4.0 * source.moderate().abs(),
        (_, 0) => source.unit() / 1024.0,
        _ => zero(source),
    })
}
