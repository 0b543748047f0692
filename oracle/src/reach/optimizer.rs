//! Child of the original's `optimizer`: opens its private items, and calls them
//! in the order in which `refine_impl` does.

use super::super::schur::reach::{pose, system};
use super::*;
use crate::flat::rows;
use crate::kernel::projection::Projection;
use crate::numerics::refine::ConvergenceCriteria;
use crate::optimizer::{Outcome, Pass, Problem, Refusal, Step, refuse};
use crate::projection::{Camera, pinhole};
use crate::recorder;
use crate::schur::{Block, Correspondence, System};

pub mod timed;

/// A camera that the original's own check lets through.
const ANY_CAMERA: Camera = [1.0, 1.0, 0.0, 0.0, 0.0];

/// The pixel model, but a moved point is seen without error. So the candidate's
/// cost, which is not compared, stays out of the point sums' way.
#[derive(Clone, Copy)]
struct StepModel<'a>(PixelModel<'a>);

impl MeasurementModel for StepModel<'_> {
    /// Cameras are inputs as given; lengths are checked before.
    fn validate(&self, _points: usize) -> Result<(), BundleAdjustmentError> {
        Ok(())
    }

    fn project(&self, view: usize, index: usize, point: &[f64; 3]) -> Option<Projection> {
        if recorder::looks_at_moved_point() {
            return Some(Projection {
                residual: [0.0; 2],
                jacobian: [[0.0; 3]; 2],
            });
        }
        self.0.project(view, index, point)
    }
}

fn pixel_model<'a>(problem: &Problem<'a>, cameras: &[Camera; 2]) -> PixelModel<'a> {
    PixelModel {
        observations1: problem.view1.as_chunks().0,
        observations2: problem.view2.as_chunks().0,
        cameras: [pinhole(&cameras[0]), pinhole(&cameras[1])],
    }
}

fn step_model<'a>(problem: &Problem<'a>) -> StepModel<'a> {
    StepModel(pixel_model(problem, &problem.rig.cameras))
}

fn points<'a>(problem: &Problem<'a>) -> &'a [[f64; 3]] {
    problem.points.as_chunks().0
}

pub(crate) fn norm(vector: &[f64; 3]) -> f64 {
    super::norm(vector)
}

pub(crate) fn limit_pose_step(step: &[f64; 5], maximum: f64) -> [f64; 5] {
    let mut step = *step;
    super::limit_pose_step(&mut step, maximum);
    step
}

fn reduced(problem: &Problem<'_>) -> Option<ReducedSystem> {
    super::reduced_system(
        step_model(problem),
        &pose(&problem.rig),
        &rows(&problem.rig.basis),
        problem.rig.baseline,
        points(problem),
        Loss::L2,
        NoiseModel::Given(problem.inverse_deviations),
        problem.damping,
    )
}

pub(crate) fn reduced_system(problem: &Problem<'_>) -> Option<System> {
    reduced(problem).map(|reduced| system(&reduced))
}

/// Rows 6 to 9 by the original's own checks, which stand in this order.
pub(crate) fn middle_rows(problem: &Problem<'_>) -> Option<Refusal> {
    let points = points(problem);
    if let Err(error) = validate_points(points) {
        return Some(refusal(error));
    }
    if points.len() < MINIMUM_POINTS {
        return Some(refuse(7, 0, 0));
    }
    pixel_model(problem, &[ANY_CAMERA; 2])
        .validate(points.len())
        .and_then(|()| projectable(problem))
        .err()
        .map(refusal)
}

fn projectable(problem: &Problem<'_>) -> Result<(), BundleAdjustmentError> {
    validate_projection_domain(step_model(problem), &pose(&problem.rig), points(problem))
}

fn refusal(error: BundleAdjustmentError) -> Refusal {
    match error {
        BundleAdjustmentError::NonFinitePoint { index, .. } => refuse(6, 0, index),
        BundleAdjustmentError::NonFiniteMeasurement { view, index } => refuse(8, view, index),
        BundleAdjustmentError::PointNotProjectable { view, index } => refuse(9, view, index),
        other => unreachable!("no other check is asked: {other}"),
    }
}

/// The part of `refine_impl` from `reduced_system` to `predicted_reduction`.
pub(crate) fn step(problem: &Problem<'_>) -> Outcome {
    if let Err(error) = projectable(problem) {
        let Refusal { view, index, .. } = refusal(error);
        return Outcome::NotProjectable(view, index);
    }
    let Some(reduced) = reduced(problem).filter(ReducedSystem::is_valid) else {
        return Outcome::Linearization;
    };
    let gradient_norm = reduced.scaled_gradient_inf_norm();
    let Some(raw_step) = solve_positive_definite(&reduced.hessian, &reduced.gradient) else {
        return Outcome::StepSolve;
    };
    let mut pose_step = raw_step.map(|value| -value);
    super::limit_pose_step(&mut pose_step, 0.5);
    let Some((rms, damping_norm)) = point_sums(problem, &pose_step) else {
        return Outcome::Candidate;
    };
    let Some(point_steps) = point_steps(problem, &pose_step) else {
        return Outcome::Candidate;
    };
    let flat = system(&reduced);
    Outcome::Done(Box::new(Step {
        pose_step,
        cost: reduced.cost,
        squared_residual: reduced.squared_residual,
        gradient_norm,
        weak_point_count: flat.weak_point_count,
        minimum_point_rcond: flat.minimum_point_rcond,
        point_step_rms: rms,
        point_damping_norm: damping_norm,
        predicted_reduction: reduced.predicted_reduction(&pose_step, problem.damping, damping_norm),
        point_steps,
        system: flat,
    }))
}

/// Step RMS and damping norm from `candidate_cost` itself.
fn point_sums(problem: &Problem<'_>, pose_step: &[f64; POSE_DIMENSION]) -> Option<(f64, f64)> {
    let pose = pose(&problem.rig);
    recorder::begin_candidate();
    let sums = candidate_cost(
        step_model(problem),
        &pose,
        &pose,
        &rows(&problem.rig.basis),
        problem.rig.baseline,
        points(problem),
        Loss::L2,
        NoiseModel::Given(problem.inverse_deviations),
        problem.damping,
        pose_step,
    );
    recorder::end_candidate();
    sums.map(|(_, rms, damping_norm)| (rms, damping_norm))
}

/// Every point's step, as `candidate_cost` and `commit_points` compute it.
fn point_steps(problem: &Problem<'_>, pose_step: &[f64; POSE_DIMENSION]) -> Option<Vec<f64>> {
    let mut steps = Vec::with_capacity(problem.points.len());
    for (index, point) in points(problem).iter().enumerate() {
        let correspondence = Correspondence {
            point: *point,
            view1: problem.view1.as_chunks().0[index],
            view2: problem.view2.as_chunks().0[index],
            inverse_deviation: problem.inverse_deviations[index],
        };
        let block: Block = crate::schur::linearize_point(&problem.rig, &correspondence).ok()?;
        let (step, _) =
            crate::schur::point_step_with_damping_norm(&block, problem.damping, pose_step)?;
        steps.extend(step);
    }
    Some(steps)
}

/// Two passes of `refine_impl`: the first fails at damping NaN, which puts the
/// plate's damping in; the second is the step. The gradient test never stops it.
pub(crate) fn refine_once(problem: &Problem<'_>, accept: bool) -> Result<Pass, (usize, usize)> {
    let never = ConvergenceCriteria::new(f64::NAN, f64::NAN, f64::NAN);
    let mut moved = points(problem).to_vec();
    recorder::begin(rows(&problem.rig.basis), problem.damping, accept);
    let report = refine_impl(
        pose(&problem.rig),
        &mut moved,
        step_model(problem),
        Options::l2(2).with_convergence(never),
        NoiseModel::Given(problem.inverse_deviations),
    );
    let record = recorder::finish();
    let report = report.map_err(|error| {
        let Refusal { view, index, .. } = refusal(error);
        (view, index)
    })?;
    let [a, b, c] = record.rotation_step;
    let [d, e] = record.direction_step;
    Ok(Pass {
        linearization: report.step_rejections.linearization - 1,
        step_solve: report.step_rejections.step_solve,
        candidate: report.step_rejections.candidate,
        pose_step: [a, b, c, d, e],
        cost: record.actual,
        predicted_reduction: record.predicted,
        step_norm: report.step_norm,
        points: moved.into_flattened(),
        gradient_norm: report.gradient_inf_norm,
        weak_point_count: report.diagnostics.weak_point_count,
        minimum_point_rcond: report
            .diagnostics
            .minimum_point_hessian_reciprocal_condition_number,
    })
}
