//! Child of the original's `schur`: opens its private items and fields.

use std::cell::Cell;

use super::super::residual::PixelModel;
use super::{LocalLinearization, MeasurementModel, ReducedSystem};
use crate::flat::{flat, rows};
use crate::kernel::projection::Projection;
use crate::kernel::two_view::{BundleAdjustmentError, RelativePose};
use crate::numerics::refine::{Loss, NoiseModel, api};
use crate::projection::pinhole;
use crate::schur::{Block, Correspondence, Rig, System};

/// The pixel model, noting the view that was last not projectable.
#[derive(Clone, Copy)]
struct Watched<'a> {
    model: PixelModel<'a>,
    failed: &'a Cell<usize>,
}

impl MeasurementModel for Watched<'_> {
    fn validate(&self, points: usize) -> Result<(), BundleAdjustmentError> {
        self.model.validate(points)
    }

    fn project(&self, view: usize, index: usize, point: &[f64; 3]) -> Option<Projection> {
        let projection = self.model.project(view, index, point);
        if projection.is_none() {
            self.failed.set(view + 1);
        }
        projection
    }
}

/// The pose as the original holds it, unchecked.
pub(crate) fn pose(rig: &Rig) -> RelativePose {
    RelativePose::new(rows(&rig.rotation), rig.translation)
}

pub(crate) fn linearize_point(rig: &Rig, correspondence: &Correspondence) -> Result<Block, usize> {
    linearize_with(rig, correspondence, NoiseModel::Given(&[correspondence.inverse_deviation]))
}

pub(crate) fn linearize_point_with_deviation(
    rig: &Rig,
    correspondence: &Correspondence,
    standard_deviation: f64,
) -> Result<Block, usize> {
    let noise = api::NoiseModel::per_observation(std::slice::from_ref(&standard_deviation));
    linearize_with(rig, correspondence, NoiseModel::Original(noise))
}

/// The block of one point under either way of giving its deviation.
fn linearize_with(rig: &Rig, correspondence: &Correspondence, noise: NoiseModel<'_>) -> Result<Block, usize> {
    let failed = Cell::new(0);
    let model = Watched {
        model: PixelModel {
            observations1: &[correspondence.view1],
            observations2: &[correspondence.view2],
            cameras: [pinhole(&rig.cameras[0]), pinhole(&rig.cameras[1])],
        },
        failed: &failed,
    };
    super::linearize_point(
        model,
        &pose(rig),
        &rows(&rig.basis),
        rig.baseline,
        &correspondence.point,
        0,
        Loss::L2,
        noise,
    )
    .map(|local| block(&local))
    .ok_or_else(|| failed.get())
}

pub(crate) fn point_step_with_damping_norm(
    block: &Block,
    damping: f64,
    pose_step: &[f64; 5],
) -> Option<([f64; 3], f64)> {
    super::point_step_with_damping_norm(&local(block), damping, pose_step)
}

/// The private function of the same name, at any size.
pub fn scaled_gradient_inf_norm<const N: usize>(gradient: &[f64; N], diagonal: &[f64; N]) -> f64 {
    super::scaled_gradient_inf_norm(gradient, diagonal)
}

pub(crate) fn new_system() -> System {
    system(&ReducedSystem::new())
}

pub(crate) fn add(system_before: &System, block: &Block, damping: f64) -> System {
    let mut reduced = reduced(system_before);
    reduced.add(&local(block), damping);
    system(&reduced)
}

pub(crate) fn finish_damping(system_before: &System, damping: f64) -> System {
    let mut reduced = reduced(system_before);
    reduced.finish_damping(damping);
    system(&reduced)
}

pub(crate) fn is_valid(system: &System) -> bool {
    reduced(system).is_valid()
}

pub(crate) fn system_gradient_norm(system: &System) -> f64 {
    reduced(system).scaled_gradient_inf_norm()
}

pub(crate) fn predicted_reduction(
    system: &System,
    step: &[f64; 5],
    damping: f64,
    point_damping_norm: f64,
) -> f64 {
    reduced(system).predicted_reduction(step, damping, point_damping_norm)
}

/// A copy of the original's block, field by field.
pub(in crate::kernel::two_view) fn block(local: &LocalLinearization) -> Block {
    Block {
        pose_hessian: flat(&local.pose_hessian),
        cross_hessian: flat(&local.cross_hessian),
        point_hessian: flat(&local.point_hessian),
        pose_gradient: local.pose_gradient,
        point_gradient: local.point_gradient,
        cost: local.cost,
        squared_residual: local.squared_residual,
    }
}

/// The original's block as a copy of a flat one.
fn local(block: &Block) -> LocalLinearization {
    LocalLinearization {
        pose_hessian: rows(&block.pose_hessian),
        cross_hessian: rows(&block.cross_hessian),
        point_hessian: rows(&block.point_hessian),
        pose_gradient: block.pose_gradient,
        point_gradient: block.point_gradient,
        cost: block.cost,
        squared_residual: block.squared_residual,
    }
}

/// A copy of the original's system, field by field.
pub(in crate::kernel::two_view) fn system(reduced: &ReducedSystem) -> System {
    System {
        hessian: flat(&reduced.hessian),
        gradient: reduced.gradient,
        cost: reduced.cost,
        squared_residual: reduced.squared_residual,
        full_pose_gradient: reduced.full_pose_gradient,
        pose_diagonal: reduced.pose_diagonal,
        point_model_reduction: reduced.point_model_reduction,
        scaled_point_gradient_inf_norm: reduced.scaled_point_gradient_inf_norm,
        minimum_point_rcond: reduced.minimum_point_rcond,
        weak_point_count: reduced.weak_point_count,
        valid: reduced.valid,
    }
}

/// The original's system as a copy of a flat one.
fn reduced(system: &System) -> ReducedSystem {
    ReducedSystem {
        hessian: rows(&system.hessian),
        gradient: system.gradient,
        cost: system.cost,
        squared_residual: system.squared_residual,
        full_pose_gradient: system.full_pose_gradient,
        pose_diagonal: system.pose_diagonal,
        point_model_reduction: system.point_model_reduction,
        scaled_point_gradient_inf_norm: system.scaled_point_gradient_inf_norm,
        minimum_point_rcond: system.minimum_point_rcond,
        weak_point_count: system.weak_point_count,
        valid: system.valid,
    }
}
