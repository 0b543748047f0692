//! point_block.rs: the 3 by 3 factor. Matrices are nine numbers by rows; a
//! factor is its six stored numbers i00, i10, i11, i20, i21, i22.

use crate::kernel::point_block::reach;

/// rcond at most this makes a block weak: the original's constant.
pub const RCOND_THRESHOLD: f64 = crate::kernel::point_block::POINT_BLOCK_RCOND_THRESHOLD;

/// `PointBlockFactor::damping_diagonal`.
pub fn damping_diagonal(matrix: &[f64; 9]) -> Option<[f64; 3]> {
    reach::damping_diagonal(matrix)
}

/// `PointBlockFactor::damped_matrix`.
pub fn damped_matrix(matrix: &[f64; 9], damping: f64) -> Option<[f64; 9]> {
    reach::damped_matrix(matrix, damping)
}

/// `PointBlockFactor::factor_damped`: the six stored numbers.
pub fn factor_damped(damped: &[f64; 9]) -> Option<[f64; 6]> {
    reach::factor_damped(damped)
}

/// `PointBlockFactor::new`: the six stored numbers.
pub fn new(matrix: &[f64; 9], damping: f64) -> Option<[f64; 6]> {
    reach::new(matrix, damping)
}

/// `PointBlockFactor::solve` on any six numbers.
pub fn solve(inverse: &[f64; 6], right_hand_side: &[f64; 3]) -> [f64; 3] {
    reach::solve(inverse, right_hand_side)
}

/// `PointBlockFactor::reciprocal_condition_number` on any six numbers.
pub fn reciprocal_condition_number(inverse: &[f64; 6], matrix: &[f64; 9]) -> f64 {
    reach::reciprocal_condition_number(inverse, matrix)
}

/// Row 3 lets a damping through that is finite and not below zero.
pub fn good_damping(damping: f64) -> bool {
    damping.is_finite() && damping >= 0.0
}
