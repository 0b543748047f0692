//! schur.rs: the block of one point, the reduced system, the point step.

use crate::kernel::two_view::schur::reach;
use crate::projection::Camera;

pub use reach::scaled_gradient_inf_norm;

/// Everything but the correspondences: cameras, pose of the second, translation
/// basis, baseline.
#[derive(Clone, Copy, Debug)]
pub struct Rig {
    pub cameras: [Camera; 2],
    /// By rows.
    pub rotation: [f64; 9],
    pub translation: [f64; 3],
    /// Two vectors, one after the other.
    pub basis: [f64; 6],
    pub baseline: f64,
}

impl Rig {
    /// How many numbers a rig has.
    pub const NUMBERS: usize = 29;

    /// All numbers in the order of the fields.
    pub fn numbers(&self) -> [f64; Self::NUMBERS] {
        let mut numbers = self
            .cameras
            .as_flattened()
            .iter()
            .chain(&self.rotation)
            .chain(&self.translation)
            .chain(&self.basis)
            .chain([&self.baseline]);
        std::array::from_fn(|_| *numbers.next().expect("29 numbers"))
    }

    /// A rig of any numbers, in the order of the fields.
    pub fn from_numbers(numbers: &[f64; Self::NUMBERS]) -> Self {
        Self {
            cameras: [part(numbers, 0), part(numbers, 5)],
            rotation: part(numbers, 10),
            translation: part(numbers, 19),
            basis: part(numbers, 22),
            baseline: numbers[28],
        }
    }
}

/// One point, where each view saw it, and its inverse standard deviation.
#[derive(Clone, Copy, Debug)]
pub struct Correspondence {
    pub point: [f64; 3],
    pub view1: [f64; 2],
    pub view2: [f64; 2],
    pub inverse_deviation: f64,
}

impl Correspondence {
    /// How many numbers a correspondence has.
    pub const NUMBERS: usize = 8;

    /// All numbers in the order of the fields.
    pub fn numbers(&self) -> [f64; Self::NUMBERS] {
        let ([x, y, z], [a, b], [c, d]) = (self.point, self.view1, self.view2);
        [x, y, z, a, b, c, d, self.inverse_deviation]
    }

    /// A correspondence of any numbers, in the order of the fields.
    pub fn from_numbers(numbers: &[f64; Self::NUMBERS]) -> Self {
        Self {
            point: part(numbers, 0),
            view1: part(numbers, 3),
            view2: part(numbers, 5),
            inverse_deviation: numbers[7],
        }
    }
}

/// `LocalLinearization`, matrices by rows (the cross Hessian is 5 by 3).
#[derive(Clone, Copy, Debug)]
pub struct Block {
    pub pose_hessian: [f64; 25],
    pub cross_hessian: [f64; 15],
    pub point_hessian: [f64; 9],
    pub pose_gradient: [f64; 5],
    pub point_gradient: [f64; 3],
    pub cost: f64,
    pub squared_residual: f64,
}

impl Block {
    /// How many numbers a block has.
    pub const NUMBERS: usize = 59;

    /// All numbers in the order of the fields.
    pub fn numbers(&self) -> [f64; Self::NUMBERS] {
        let mut numbers = self
            .pose_hessian
            .iter()
            .chain(&self.cross_hessian)
            .chain(&self.point_hessian)
            .chain(&self.pose_gradient)
            .chain(&self.point_gradient)
            .chain([&self.cost, &self.squared_residual]);
        std::array::from_fn(|_| *numbers.next().expect("59 numbers"))
    }

    /// A block of any numbers, in the order of the fields.
    pub fn from_numbers(numbers: &[f64; Self::NUMBERS]) -> Self {
        Self {
            pose_hessian: part(numbers, 0),
            cross_hessian: part(numbers, 25),
            point_hessian: part(numbers, 40),
            pose_gradient: part(numbers, 49),
            point_gradient: part(numbers, 54),
            cost: numbers[57],
            squared_residual: numbers[58],
        }
    }
}

/// `N` numbers from `start` on.
fn part<const N: usize>(numbers: &[f64], start: usize) -> [f64; N] {
    std::array::from_fn(|index| numbers[start + index])
}

/// `linearize_point` with `Loss::L2`. `Err` holds the view, 1 or 2, that is not
/// projectable. The inverse standard deviation is used as given.
pub fn linearize_point(rig: &Rig, correspondence: &Correspondence) -> Result<Block, usize> {
    reach::linearize_point(rig, correspondence)
}

/// The same through the original's own noise model, which takes a standard
/// deviation and uses its reciprocal. The correspondence's own is not read.
pub fn linearize_point_with_deviation(
    rig: &Rig,
    correspondence: &Correspondence,
    standard_deviation: f64,
) -> Result<Block, usize> {
    reach::linearize_point_with_deviation(rig, correspondence, standard_deviation)
}

/// `point_step_with_damping_norm`: step and damping norm; none if no factor.
pub fn point_step_with_damping_norm(
    block: &Block,
    damping: f64,
    pose_step: &[f64; 5],
) -> Option<([f64; 3], f64)> {
    reach::point_step_with_damping_norm(block, damping, pose_step)
}

/// `ReducedSystem`, every field, the Hessian by rows.
#[derive(Clone, Copy, Debug)]
pub struct System {
    pub hessian: [f64; 25],
    pub gradient: [f64; 5],
    pub cost: f64,
    pub squared_residual: f64,
    pub full_pose_gradient: [f64; 5],
    pub pose_diagonal: [f64; 5],
    pub point_model_reduction: f64,
    pub scaled_point_gradient_inf_norm: f64,
    pub minimum_point_rcond: f64,
    pub weak_point_count: usize,
    pub valid: bool,
}

impl Default for System {
    fn default() -> Self {
        Self::new()
    }
}

impl System {
    /// How many floats a system has.
    pub const NUMBERS: usize = 45;

    /// `ReducedSystem::new`.
    pub fn new() -> Self {
        reach::new_system()
    }

    /// All floats in the order of the fields.
    pub fn numbers(&self) -> [f64; Self::NUMBERS] {
        let mut numbers = self
            .hessian
            .iter()
            .chain(&self.gradient)
            .chain([&self.cost, &self.squared_residual])
            .chain(&self.full_pose_gradient)
            .chain(&self.pose_diagonal)
            .chain([&self.point_model_reduction])
            .chain([&self.scaled_point_gradient_inf_norm])
            .chain([&self.minimum_point_rcond]);
        std::array::from_fn(|_| *numbers.next().expect("45 numbers"))
    }

    /// A system of any floats, in the order of the fields, any count and flag.
    pub fn from_parts(
        numbers: &[f64; Self::NUMBERS],
        weak_point_count: usize,
        valid: bool,
    ) -> Self {
        Self {
            hessian: part(numbers, 0),
            gradient: part(numbers, 25),
            cost: numbers[30],
            squared_residual: numbers[31],
            full_pose_gradient: part(numbers, 32),
            pose_diagonal: part(numbers, 37),
            point_model_reduction: numbers[42],
            scaled_point_gradient_inf_norm: numbers[43],
            minimum_point_rcond: numbers[44],
            weak_point_count,
            valid,
        }
    }

    /// `ReducedSystem::add`, by value. The count must be below `usize::MAX`.
    #[must_use]
    pub fn add(&self, block: &Block, damping: f64) -> Self {
        reach::add(self, block, damping)
    }

    /// `ReducedSystem::finish_damping`, by value.
    #[must_use]
    pub fn finish_damping(&self, damping: f64) -> Self {
        reach::finish_damping(self, damping)
    }

    /// `ReducedSystem::is_valid`.
    pub fn is_valid(&self) -> bool {
        reach::is_valid(self)
    }

    /// `ReducedSystem::scaled_gradient_inf_norm`.
    pub fn scaled_gradient_inf_norm(&self) -> f64 {
        reach::system_gradient_norm(self)
    }

    /// `ReducedSystem::predicted_reduction`.
    pub fn predicted_reduction(&self, step: &[f64; 5], damping: f64, point_norm: f64) -> f64 {
        reach::predicted_reduction(self, step, damping, point_norm)
    }
}
