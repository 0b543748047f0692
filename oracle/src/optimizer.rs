//! optimizer.rs: the step limit, the reduced system of a plate, the whole step.

use crate::kernel::two_view::optimizer::reach;
pub use crate::kernel::two_view::optimizer::reach::timed;
use crate::schur::{Rig, System};

/// What a whole step is lent, flat, with its rig and damping.
#[derive(Clone, Copy, Debug)]
pub struct Problem<'a> {
    pub rig: Rig,
    pub damping: f64,
    /// Three numbers a point.
    pub points: &'a [f64],
    /// Two numbers a point, in each view.
    pub view1: &'a [f64],
    pub view2: &'a [f64],
    /// One number a point.
    pub inverse_deviations: &'a [f64],
}

impl Problem<'_> {
    /// How many points, if all lengths belong to one count.
    pub fn count(&self) -> Option<usize> {
        let n = self.inverse_deviations.len();
        let lengths = [self.points.len(), self.view1.len(), self.view2.len()];
        (lengths == [3 * n, 2 * n, 2 * n]).then_some(n)
    }
}

/// All that a whole step gives.
#[derive(Clone, Debug)]
pub struct Step {
    /// After the limit of 0.5.
    pub pose_step: [f64; 5],
    pub cost: f64,
    pub squared_residual: f64,
    pub gradient_norm: f64,
    pub weak_point_count: usize,
    pub minimum_point_rcond: f64,
    pub point_step_rms: f64,
    pub point_damping_norm: f64,
    pub predicted_reduction: f64,
    /// Three numbers a point, before any product with the baseline.
    pub point_steps: Vec<f64>,
    /// The whole system after pose damping, for a closer look.
    pub system: System,
}

impl Step {
    /// The twelve floats of the result, in the order of the fields.
    pub fn numbers(&self) -> [f64; 12] {
        let [a, b, c, d, e] = self.pose_step;
        [
            a,
            b,
            c,
            d,
            e,
            self.cost,
            self.squared_residual,
            self.gradient_norm,
            self.minimum_point_rcond,
            self.point_step_rms,
            self.point_damping_norm,
            self.predicted_reduction,
        ]
    }
}

/// How the original's part of a whole step ends.
#[derive(Clone, Debug)]
pub enum Outcome {
    Done(Box<Step>),
    /// A point cannot be projected: view 1 or 2, and index.
    NotProjectable(usize, usize),
    /// The system is not valid: the original counts `Linearization`.
    Linearization,
    /// The 5 by 5 solve gives none: the original counts `StepSolve`.
    StepSolve,
    /// A point step was refused in a valid system. Never seen.
    Candidate,
}

/// A numbered refusal.
#[derive(Clone, Copy, Debug, PartialEq, Eq)]
pub struct Refusal {
    pub number: u32,
    pub view: usize,
    pub index: usize,
}

/// `limit_pose_step`.
pub fn limit_pose_step(step: &[f64; 5], maximum: f64) -> [f64; 5] {
    reach::limit_pose_step(step, maximum)
}

/// `norm` of a translation: the baseline as the original computes it.
pub fn norm(vector: &[f64; 3]) -> f64 {
    reach::norm(vector)
}

/// `reduced_system` with `Loss::L2`: all blocks added, pose damping done; none
/// if a point is not projectable. The lengths must belong to one count.
pub fn reduced_system(problem: &Problem<'_>) -> Option<System> {
    reach::reduced_system(problem)
}

/// The original's part of the whole step, from `reduced_system` to
/// `predicted_reduction`. The lengths must belong to one count; nothing else
/// is checked first.
pub fn step(problem: &Problem<'_>) -> Outcome {
    reach::step(problem)
}

/// The whole step with the numbered refusals 1 to 11, in their order.
pub fn whole_step(problem: &Problem<'_>, room: usize) -> Result<Box<Step>, Refusal> {
    if let Some(refusal) = first_rows(problem, room) {
        return Err(refusal);
    }
    if let Some(refusal) = reach::middle_rows(problem) {
        return Err(refusal);
    }
    match step(problem) {
        Outcome::Done(step) => Ok(step),
        Outcome::NotProjectable(view, index) => Err(refuse(9, view, index)),
        Outcome::StepSolve => Err(refuse(11, 0, 0)),
        Outcome::Linearization | Outcome::Candidate => Err(refuse(10, 0, 0)),
    }
}

/// Rows 1 to 5, which the original leaves to its caller or checks elsewhere.
pub(crate) fn first_rows(problem: &Problem<'_>, room: usize) -> Option<Refusal> {
    let Some(n) = problem.count().filter(|n| room == 3 * n) else {
        return Some(refuse(1, 0, 0));
    };
    if n > 65_535 {
        return Some(refuse(2, 0, 0));
    }
    if !crate::point_block::good_damping(problem.damping) {
        return Some(refuse(3, 0, 0));
    }
    let bad = |value: &f64| !(value.is_finite() && *value > 0.0);
    if let Some(index) = problem.inverse_deviations.iter().position(bad) {
        return Some(refuse(4, 0, index));
    }
    let baseline = problem.rig.baseline;
    if !(baseline.is_finite() && baseline > 64.0 * f64::EPSILON) {
        return Some(refuse(5, 0, 0));
    }
    None
}

pub(crate) fn refuse(number: u32, view: usize, index: usize) -> Refusal {
    Refusal {
        number,
        view,
        index,
    }
}

/// What one pass through the original's own loop shows of a step.
#[derive(Clone, Debug)]
pub struct Pass {
    /// Passes counted as `Linearization` and `StepSolve`; the first pass, at
    /// damping NaN, is left out of the count.
    pub linearization: usize,
    pub step_solve: usize,
    pub candidate: usize,
    /// NaN unless the pass came as far as a candidate.
    pub pose_step: [f64; 5],
    pub cost: f64,
    pub predicted_reduction: f64,
    /// Root of the sum of both squared step RMS values; only if accepted.
    pub step_norm: f64,
    /// The points after the pass: moved by baseline times step if accepted.
    pub points: Vec<f64>,
    /// Figures of the system at damping zero, only if not accepted.
    pub gradient_norm: f64,
    pub weak_point_count: usize,
    pub minimum_point_rcond: f64,
}

/// Runs `refine_impl` itself for one pass at the plate's damping and basis, to
/// hold `step` against. `Err` holds view and index of a point that cannot be
/// projected. None where the baseline is not the norm of the translation, since
/// `refine_impl` takes no other.
pub fn refine_once(problem: &Problem<'_>, accept: bool) -> Option<Result<Pass, (usize, usize)>> {
    let computed = norm(&problem.rig.translation);
    (computed.to_bits() == problem.rig.baseline.to_bits())
        .then(|| reach::refine_once(problem, accept))
}
