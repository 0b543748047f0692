//! The original's `kernel` tree. Only these declarations are ours.

#[allow(dead_code)]
#[rustfmt::skip]
#[path = "../../original/crates/openmvg-ba/src/kernel/camera.rs"]
pub mod camera;
include!(concat!(env!("OUT_DIR"), "/point_block_mod.rs"));
#[allow(dead_code)]
#[rustfmt::skip]
#[path = "../../original/crates/openmvg-ba/src/kernel/projection.rs"]
pub mod projection;
pub mod two_view;
