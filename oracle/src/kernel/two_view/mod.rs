//! The original's `kernel::two_view` tree. Only these declarations are ours.

#[allow(dead_code)]
#[rustfmt::skip]
#[path = "../../../original/crates/openmvg-ba/src/kernel/two_view/api.rs"]
mod api;
include!(concat!(env!("OUT_DIR"), "/optimizer_mod.rs"));
#[allow(dead_code)]
#[rustfmt::skip]
#[path = "../../../original/crates/openmvg-ba/src/kernel/two_view/residual.rs"]
mod residual;
include!(concat!(env!("OUT_DIR"), "/schur_mod.rs"));

pub use super::camera::{PinholeCamera, RelativePose};
pub use api::{
    BundleAdjustmentDiagnostics, BundleAdjustmentError, BundleAdjustmentReport, TwoViewMeasurements,
};
