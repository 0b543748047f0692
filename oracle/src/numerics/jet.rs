//! Stands in for automatic differentiation. solver.rs names the type in
//! functions that are not compared; `solve_positive_definite` has no part in it.

/// A value with its derivatives, without any arithmetic.
pub struct Jet<const N: usize> {
    pub value: f64,
    pub deriv: [f64; N],
}
