//! One whole step of the two-view problem, and the limit of the pose step.

use crate::{Refusal, Rig, filled, slices};

/// What a whole step is lent: for n points, 3n, 2n, 2n and n numbers.
#[derive(Clone, Copy, Debug)]
pub struct Problem<'a> {
    pub points: &'a [f64],
    pub view1: &'a [f64],
    pub view2: &'a [f64],
    pub inverse_deviations: &'a [f64],
    pub rig: &'a Rig,
    pub damping: f64,
}

/// What a whole step gives beside the steps of the points.
#[derive(Clone, Copy, Debug, PartialEq)]
pub struct Step {
    /// At most 0.5 in rotation and in translation.
    pub pose_step: [f64; 5],
    pub cost: f64,
    pub squared_residual: f64,
    pub gradient_norm: f64,
    pub weak_point_count: u16,
    pub minimum_point_rcond: f64,
    pub point_step_rms: f64,
    pub point_damping_norm: f64,
    pub predicted_reduction: f64,
}

/// One whole step; `point_steps`, 3n numbers, then has the step of each point. Rows 1
/// to 11; a refused call leaves it as it was.
pub fn step(problem: &Problem<'_>, point_steps: &mut [f64]) -> Result<Step, Refusal> {
    let mut weak = [0];
    let numbers = filled::<12>(|out| {
        slices::step(
            problem.points,
            problem.view1,
            problem.view2,
            problem.inverse_deviations,
            problem.rig,
            problem.damping,
            point_steps,
            out,
            &mut weak,
        )
    })?;
    let [a, b, c, d, e, cost, squared_residual, rest @ ..] = numbers;
    let [
        gradient_norm,
        minimum_point_rcond,
        point_step_rms,
        rest @ ..,
    ] = rest;
    let [point_damping_norm, predicted_reduction] = rest;
    Ok(Step {
        pose_step: [a, b, c, d, e],
        cost,
        squared_residual,
        gradient_norm,
        weak_point_count: weak[0],
        minimum_point_rcond,
        point_step_rms,
        point_damping_norm,
        predicted_reduction,
    })
}

/// The step of the pose, limited to 0.5. Never refused.
pub fn limit_pose_step(x: &[f64; 5]) -> Result<[f64; 5], Refusal> {
    filled(|out| slices::limit_pose_step(x, out))
}
