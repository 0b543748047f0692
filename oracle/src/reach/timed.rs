//! Child of the opened `optimizer`: the original's functions on its own types,
//! for timing. Nothing is copied to flat arrays and nothing is allocated here;
//! the model is the original's own, without the recorder.

use super::super::super::schur::{LocalLinearization, reach};
use super::*;
use crate::flat::flat;
use crate::kernel::camera::RelativePose;
use crate::kernel::point_block::{self, PointBlockFactor};
use crate::kernel::projection::pixel_projection;
use crate::optimizer::first_rows;

/// A plate as the original holds it.
pub struct Prepared<'a> {
    problem: Problem<'a>,
    model: PixelModel<'a>,
    pose: RelativePose,
    basis: [[f64; 3]; 2],
}

/// The original's projection of one point.
pub struct OwnProjection(Projection);

/// The original's factor of a point's matrix, and its rcond.
pub struct OwnFactor(PointBlockFactor, f64);

/// The original's block of one point.
pub struct OwnBlock(LocalLinearization);

/// The original's system.
pub struct OwnSystem(ReducedSystem);

impl<'a> Prepared<'a> {
    /// The lengths must belong to one count.
    pub fn new(problem: &Problem<'a>) -> Self {
        Self {
            problem: *problem,
            model: pixel_model(problem, &problem.rig.cameras),
            pose: pose(&problem.rig),
            basis: rows(&problem.rig.basis),
        }
    }

    fn noise(&self) -> NoiseModel<'a> {
        NoiseModel::Given(self.problem.inverse_deviations)
    }

    /// `pixel_projection` into the first camera.
    #[inline(never)]
    pub fn project(&self, index: usize) -> Option<OwnProjection> {
        let (camera, point) = (self.model.cameras[0], &points(&self.problem)[index]);
        pixel_projection(camera, &self.model.observations1[index], point).map(OwnProjection)
    }

    /// `linearize_point`.
    #[inline(never)]
    pub fn block(&self, index: usize) -> Option<OwnBlock> {
        let point = &points(&self.problem)[index];
        self.linearized(index, point).map(OwnBlock)
    }

    fn linearized(&self, index: usize, point: &[f64; 3]) -> Option<LocalLinearization> {
        linearize_point(
            self.model,
            &self.pose,
            &self.basis,
            self.problem.rig.baseline,
            point,
            index,
            Loss::L2,
            self.noise(),
        )
    }

    /// The whole step: rows 1 to 9, the system, the solve, then each point's
    /// step into the room, so that the list in `Step` stays empty.
    #[inline(never)]
    pub fn step(&self, room: &mut [f64]) -> Option<Step> {
        if !self.accepted(room.len()) {
            return None;
        }
        let reduced = self.reduced().filter(ReducedSystem::is_valid)?;
        let gradient_norm = reduced.scaled_gradient_inf_norm();
        let raw_step = solve_positive_definite(&reduced.hessian, &reduced.gradient)?;
        let mut pose_step = raw_step.map(|value| -value);
        super::super::limit_pose_step(&mut pose_step, 0.5);
        let (rms, norm) = self.write_steps(&pose_step, room)?;
        let flat = system(&reduced);
        Some(Step {
            pose_step,
            cost: reduced.cost,
            squared_residual: reduced.squared_residual,
            gradient_norm,
            weak_point_count: flat.weak_point_count,
            minimum_point_rcond: flat.minimum_point_rcond,
            point_step_rms: rms,
            point_damping_norm: norm,
            predicted_reduction: reduced.predicted_reduction(&pose_step, self.problem.damping, norm),
            point_steps: Vec::new(),
            system: flat,
        })
    }

    /// Rows 1 to 9, those from 6 on by the original's own checks.
    #[inline(never)]
    pub fn accepted(&self, room: usize) -> bool {
        let points = points(&self.problem);
        first_rows(&self.problem, room).is_none()
            && validate_points(points).is_ok()
            && points.len() >= MINIMUM_POINTS
            && self.model.validate(points.len()).is_ok()
            && validate_projection_domain(self.model, &self.pose, points).is_ok()
    }

    /// `reduced_system`.
    fn reduced(&self) -> Option<ReducedSystem> {
        super::super::reduced_system(
            self.model,
            &self.pose,
            &self.basis,
            self.problem.rig.baseline,
            points(&self.problem),
            Loss::L2,
            self.noise(),
            self.problem.damping,
        )
    }

    /// The loop of `candidate_cost` without the candidate: its step RMS and
    /// damping norm, and each step kept.
    fn write_steps(&self, pose_step: &[f64; 5], room: &mut [f64]) -> Option<(f64, f64)> {
        let points = points(&self.problem);
        let (mut squared, mut norms) = (0.0, 0.0);
        let places = room.as_chunks_mut().0;
        for ((index, point), place) in points.iter().enumerate().zip(places) {
            let local = self.linearized(index, point)?;
            let (step, norm) = point_step_with_damping_norm(&local, self.problem.damping, pose_step)?;
            *place = step;
            squared += squared_norm(&step);
            norms += norm;
        }
        Some(((squared / points.len() as f64).sqrt(), norms))
    }
}

impl OwnProjection {
    /// Residual, then Jacobian by rows.
    pub fn flat(&self) -> [f64; 8] {
        let [u, v] = self.0.residual;
        let [a, b, c, d, e, f] = flat(&self.0.jacobian);
        [u, v, a, b, c, d, e, f]
    }
}

impl OwnFactor {
    /// `PointBlockFactor::new` and `reciprocal_condition_number`; row 3 first.
    #[inline(never)]
    pub fn new(matrix: &[[f64; 3]; 3], damping: f64) -> Option<Self> {
        if !crate::point_block::good_damping(damping) {
            return None;
        }
        let factor = PointBlockFactor::new(matrix, damping)?;
        let rcond = factor.reciprocal_condition_number(matrix);
        Some(Self(factor, rcond))
    }

    /// The six stored numbers, then rcond.
    pub fn flat(&self) -> [f64; 7] {
        let [a, b, c, d, e, f] = point_block::reach::inverse(&self.0);
        [a, b, c, d, e, f, self.1]
    }
}

impl OwnBlock {
    /// `point_hessian`.
    pub fn matrix(&self) -> [[f64; 3]; 3] {
        self.0.point_hessian
    }

    /// A flat copy.
    pub fn flat(&self) -> Block {
        reach::block(&self.0)
    }
}

impl Default for OwnSystem {
    fn default() -> Self {
        Self(ReducedSystem::new())
    }
}

impl OwnSystem {
    /// `ReducedSystem::add`.
    #[inline(never)]
    pub fn add(&mut self, block: &OwnBlock, damping: f64) {
        self.0.add(&block.0, damping);
    }

    /// A flat copy.
    pub fn flat(&self) -> System {
        system(&self.0)
    }
}
