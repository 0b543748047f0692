//! projection.rs: the pixel projection.

use crate::flat::flat;
use crate::kernel::camera::PinholeCamera;
use crate::kernel::projection as original;

/// fx, fy, cx, cy, skew.
pub type Camera = [f64; 5];

/// The camera as the original holds it, unchecked.
pub(crate) fn pinhole(camera: &Camera) -> PinholeCamera {
    let [fx, fy, cx, cy, skew] = *camera;
    PinholeCamera {
        fx,
        fy,
        cx,
        cy,
        skew,
    }
}

/// `pixel_projection`: residual, and Jacobian by rows; none if refused.
pub fn pixel_projection(
    camera: &Camera,
    observation: &[f64; 2],
    point: &[f64; 3],
) -> Option<([f64; 2], [f64; 6])> {
    original::pixel_projection(pinhole(camera), observation, point)
        .map(|projection| (projection.residual, flat(&projection.jacobian)))
}

/// `tangent_basis`: two vectors across a unit vector.
pub fn tangent_basis(unit: &[f64; 3]) -> [f64; 6] {
    flat(&original::tangent_basis(unit))
}
