//! The original's `numerics` tree. `manifold`, `jet` and `robust` stand in for
//! files that are not at hand or need another library.

pub mod jet;
pub mod manifold;
pub mod refine;
pub mod robust;
