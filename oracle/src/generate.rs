//! Inputs from a seed: numbers of every kind, blocks, systems, and whole
//! plates, sound and unsound. The same seed gives the same inputs anywhere; no
//! function of the machine's mathematics library is used.

mod blocks;
mod faults;
mod plates;
mod rigs;
mod source;

pub use blocks::{any_block, any_system, correspondence, equations, matrix};
pub use faults::{FAULTS, Fault, any_problem, faulty};
pub use plates::{Case, problem};
pub use rigs::{camera, damping, observed, rig, rotation};
pub use source::{SPECIALS, Source};
