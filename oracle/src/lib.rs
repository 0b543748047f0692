//! The original two-view kernel, compiled unchanged, behind functions on flat
//! arrays. Every number that comes back was computed by the original's text;
//! what is written here only carries numbers in and out.
//!
//! The modules carry the names of the original files they open up.

mod kernel;
mod numerics;
mod recorder;

pub mod flat;
pub mod generate;
pub mod optimizer;
pub mod point_block;
pub mod projection;
pub mod record;
pub mod records;
pub mod refused;
pub mod schur;
pub mod solver;
pub mod zeros;
