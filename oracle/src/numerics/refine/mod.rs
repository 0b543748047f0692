//! The original's `numerics::refine` tree. `covariance` stands in for a missing
//! file, and `NoiseModel` is the harness's: see noise.rs.

#[allow(dead_code)]
#[rustfmt::skip]
#[path = "../../../original/crates/openmvg-ba/src/numerics/refine/api.rs"]
pub mod api;
pub mod covariance;
mod noise;
pub mod nonlinear;
#[allow(dead_code)]
#[rustfmt::skip]
#[path = "../../../original/crates/openmvg-ba/src/numerics/refine/solver.rs"]
pub mod solver;

pub use api::{
    ConvergenceCriteria, ConvergenceCriterion, Loss, Options, RefinementError, RefinementStatus,
};
pub use noise::NoiseModel;
pub use nonlinear::StepRejections;
