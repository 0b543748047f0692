//! Rigs as the port's callers have them, and what their cameras see.

use super::source::Source;
use crate::optimizer::norm;
use crate::projection::{Camera, pixel_projection, tangent_basis};
use crate::schur::{Correspondence, Rig};

/// A camera as the port's callers have it.
pub fn camera(source: &mut Source) -> Camera {
    [
        source.between(400.0, 1600.0),
        source.between(400.0, 1600.0),
        source.between(300.0, 700.0),
        source.between(200.0, 500.0),
        if source.once_in(2) {
            0.0
        } else {
            source.between(-2.0, 2.0)
        },
    ]
}

/// A rotation by rows, from the quaternion (1, a, b, c) made unit.
pub fn rotation(a: f64, b: f64, c: f64) -> [f64; 9] {
    let length = (1.0 + a * a + b * b + c * c).sqrt();
    let (w, x, y, z) = (1.0 / length, a / length, b / length, c / length);
    [
        1.0 - 2.0 * (y * y + z * z),
        2.0 * (x * y - z * w),
        2.0 * (x * z + y * w),
        2.0 * (x * y + z * w),
        1.0 - 2.0 * (x * x + z * z),
        2.0 * (y * z - x * w),
        2.0 * (x * z - y * w),
        2.0 * (y * z + x * w),
        1.0 - 2.0 * (x * x + y * y),
    ]
}

/// A vector of length about one in a random direction, mostly sideways.
fn direction(source: &mut Source) -> [f64; 3] {
    let raw = [
        source.between(0.5, 1.0) * if source.once_in(2) { -1.0 } else { 1.0 },
        source.between(-0.5, 0.5),
        source.between(-0.3, 0.3),
    ];
    let length = norm(&raw);
    raw.map(|value| value / length)
}

/// Two cameras, a small rotation, a translation of about unit length with its
/// tangent basis, and the baseline as the original computes it.
pub fn rig(source: &mut Source) -> Rig {
    let unit = direction(source);
    let scale = if source.once_in(2) {
        1.0
    } else {
        source.between(0.05, 3.0)
    };
    let translation = unit.map(|value| value * scale);
    let mut angle = || source.between(-0.1, 0.1);
    Rig {
        rotation: rotation(angle(), angle(), angle()),
        cameras: [camera(source), camera(source)],
        translation,
        basis: tangent_basis(&unit),
        baseline: norm(&translation),
    }
}

/// Where a point stands in the second camera's frame.
fn moved(rig: &Rig, point: &[f64; 3]) -> [f64; 3] {
    std::array::from_fn(|row| {
        (0..3)
            .map(|column| rig.rotation[3 * row + column] * point[column])
            .sum::<f64>()
            + rig.translation[row]
    })
}

/// Where a camera sees a point: the residual against (0, 0), or nothing.
fn seen(camera: &Camera, point: &[f64; 3]) -> [f64; 2] {
    pixel_projection(camera, &[0.0; 2], point).map_or([0.0; 2], |(pixel, _)| pixel)
}

/// A point as both cameras see it, off by up to `noise` pixels.
pub fn observed(source: &mut Source, rig: &Rig, point: [f64; 3], noise: f64) -> Correspondence {
    let mut off = |pixel: [f64; 2]| pixel.map(|value| value + source.between(-noise, noise));
    Correspondence {
        point,
        view1: off(seen(&rig.cameras[0], &point)),
        view2: off(seen(&rig.cameras[1], &moved(rig, &point))),
        inverse_deviation: match source.below(4) {
            0 => 1.0,
            1 => 2.0,
            _ => source.between(0.2, 5.0),
        },
    }
}

/// A damping as the loop would try it; both zeros among them.
pub fn damping(source: &mut Source) -> f64 {
    match source.below(8) {
        0..=2 => 0.0,
        3 => -0.0,
        4 => 1.0,
        5 => source.between(0.0, 10.0),
        6 => source.power().min(1e300),
        _ => source.between(0.0, 1e-3),
    }
}
