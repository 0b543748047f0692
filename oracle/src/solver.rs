//! solver.rs: the 5 by 5 solve.

use crate::flat::rows;
use crate::numerics::refine::solver as original;

/// `solve_positive_definite::<5>`, matrix by rows; none if refused.
pub fn solve_positive_definite(a: &[f64; 25], b: &[f64; 5]) -> Option<[f64; 5]> {
    original::solve_positive_definite::<5>(&rows(a), b)
}
