//! Stands in for the rotation updates, which are not ported. The basis is
//! handed in, the parts of the pose step are written down, and every pose that
//! comes back is NaN, so that a result that rested on one would show it.

use crate::recorder;

/// Row-major 3 by 3 matrix, as in the original.
pub type Mat3 = [[f64; 3]; 3];

/// A rotation that is taken as given.
#[derive(Clone, Copy, Debug)]
pub struct Rotation3(Mat3);

impl Rotation3 {
    /// Refuses nothing: rotations are inputs as given.
    pub fn try_from_matrix(matrix: Mat3) -> Result<Self, Pose3Error> {
        Ok(Self(matrix))
    }

    pub fn into_matrix(self) -> Mat3 {
        self.0
    }
}

/// A pose that is taken as given.
#[derive(Clone, Copy, Debug)]
pub struct Pose3(Rotation3, [f64; 3]);

/// Never made.
#[derive(Clone, Copy, Debug)]
pub struct Pose3Error;

impl Pose3 {
    pub fn try_from_parts(rotation: Mat3, translation: [f64; 3]) -> Result<Self, Pose3Error> {
        Ok(Self(Rotation3(rotation), translation))
    }

    pub fn rotation(self) -> Rotation3 {
        self.0
    }

    pub fn translation(self) -> [f64; 3] {
        self.1
    }
}

/// The basis that was handed in; NaN if none was.
pub fn s2_tangent_basis(_direction: &[f64; 3]) -> [[f64; 3]; 2] {
    recorder::basis()
}

/// Writes down the rotation part of the step; from here on a candidate is tried.
pub fn exp_so3(step: &[f64; 3]) -> Mat3 {
    recorder::rotation_step(*step);
    recorder::begin_candidate();
    [[f64::NAN; 3]; 3]
}

/// Writes down the direction part of the step.
pub fn retract_s2(_direction: &[f64; 3], _basis: &[[f64; 3]; 2], step: &[f64; 2]) -> [f64; 3] {
    recorder::direction_step(*step);
    [f64::NAN; 3]
}

pub fn mat_mul(_left: &Mat3, _right: &Mat3) -> Mat3 {
    [[f64::NAN; 3]; 3]
}
