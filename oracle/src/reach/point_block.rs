//! Child of the original's `point_block`: opens its private items.

use super::PointBlockFactor;
use crate::flat::{flat, rows};

pub(crate) fn damping_diagonal(matrix: &[f64; 9]) -> Option<[f64; 3]> {
    PointBlockFactor::damping_diagonal(&rows(matrix))
}

pub(crate) fn damped_matrix(matrix: &[f64; 9], damping: f64) -> Option<[f64; 9]> {
    PointBlockFactor::damped_matrix(&rows(matrix), damping).map(|damped| flat(&damped))
}

pub(crate) fn factor_damped(damped: &[f64; 9]) -> Option<[f64; 6]> {
    PointBlockFactor::factor_damped(&rows(damped)).map(|factor| factor.inverse)
}

pub(crate) fn new(matrix: &[f64; 9], damping: f64) -> Option<[f64; 6]> {
    PointBlockFactor::new(&rows(matrix), damping).map(|factor| factor.inverse)
}

pub(crate) fn solve(inverse: &[f64; 6], right_hand_side: &[f64; 3]) -> [f64; 3] {
    PointBlockFactor { inverse: *inverse }.solve(right_hand_side)
}

pub(crate) fn reciprocal_condition_number(inverse: &[f64; 6], matrix: &[f64; 9]) -> f64 {
    PointBlockFactor { inverse: *inverse }.reciprocal_condition_number(&rows(matrix))
}

/// The six stored numbers.
pub(in crate::kernel) fn inverse(factor: &PointBlockFactor) -> [f64; 6] {
    factor.inverse
}
