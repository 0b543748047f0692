//! Every call over slices of any length. A length that does not fit gives row
//! 1; the answer is the code that `Refusal::from_code` reads.
//!
//! Why these are safe: a call reads no further than the lengths that it is
//! given, and writes only `out`, the point steps, the weak count, or the system that it
//! changes, and that only where it answers 0.

use crate::ffi;

/// `camera` 5, `observation` 2, `point` 3, `out` 8.
pub fn pixel_projection(
    camera: &[f64],
    observation: &[f64],
    point: &[f64],
    out: &mut [f64],
) -> u64 {
    unsafe {
        ffi::pixel_step_pixel_projection(
            camera.as_ptr(),
            camera.len(),
            observation.as_ptr(),
            observation.len(),
            point.as_ptr(),
            point.len(),
            out.as_mut_ptr(),
            out.len(),
        )
    }
}

/// `matrix` 9, `out` 3.
pub fn damping_diagonal(matrix: &[f64], out: &mut [f64]) -> u64 {
    unsafe {
        ffi::pixel_step_damping_diagonal(matrix.as_ptr(), matrix.len(), out.as_mut_ptr(), out.len())
    }
}

/// `matrix` 9, `out` 9.
pub fn damped_matrix(matrix: &[f64], damping: f64, out: &mut [f64]) -> u64 {
    unsafe {
        ffi::pixel_step_damped_matrix(
            matrix.as_ptr(),
            matrix.len(),
            damping,
            out.as_mut_ptr(),
            out.len(),
        )
    }
}

/// `matrix` 9, `out` 6.
pub fn factor_damped(matrix: &[f64], out: &mut [f64]) -> u64 {
    unsafe {
        ffi::pixel_step_factor_damped(matrix.as_ptr(), matrix.len(), out.as_mut_ptr(), out.len())
    }
}

/// `matrix` 9, `out` 7.
pub fn factor_new(matrix: &[f64], damping: f64, out: &mut [f64]) -> u64 {
    unsafe {
        ffi::pixel_step_factor_new(
            matrix.as_ptr(),
            matrix.len(),
            damping,
            out.as_mut_ptr(),
            out.len(),
        )
    }
}

/// `inverse` 6, `rhs` 3, `out` 3.
pub fn factor_solve(inverse: &[f64], rhs: &[f64], out: &mut [f64]) -> u64 {
    unsafe {
        ffi::pixel_step_factor_solve(
            inverse.as_ptr(),
            inverse.len(),
            rhs.as_ptr(),
            rhs.len(),
            out.as_mut_ptr(),
            out.len(),
        )
    }
}

/// `inverse` 6, `matrix` 9, `out` 1.
pub fn reciprocal_condition_number(inverse: &[f64], matrix: &[f64], out: &mut [f64]) -> u64 {
    unsafe {
        ffi::pixel_step_reciprocal_condition_number(
            inverse.as_ptr(),
            inverse.len(),
            matrix.as_ptr(),
            matrix.len(),
            out.as_mut_ptr(),
            out.len(),
        )
    }
}

/// `a` 25, `b` 5, `out` 5.
pub fn solve_positive_definite(a: &[f64], b: &[f64], out: &mut [f64]) -> u64 {
    unsafe {
        ffi::pixel_step_solve_positive_definite(
            a.as_ptr(),
            a.len(),
            b.as_ptr(),
            b.len(),
            out.as_mut_ptr(),
            out.len(),
        )
    }
}

/// `rig` 29, `correspondence` 8, `out` 59.
pub fn linearize_point(rig: &[f64], correspondence: &[f64], out: &mut [f64]) -> u64 {
    unsafe {
        ffi::pixel_step_linearize_point(
            rig.as_ptr(),
            rig.len(),
            correspondence.as_ptr(),
            correspondence.len(),
            out.as_mut_ptr(),
            out.len(),
        )
    }
}

/// `block` 59, `pose_step` 5, `out` 4.
pub fn point_step_with_damping_norm(
    block: &[f64],
    damping: f64,
    pose_step: &[f64],
    out: &mut [f64],
) -> u64 {
    unsafe {
        ffi::pixel_step_point_step_with_damping_norm(
            block.as_ptr(),
            block.len(),
            damping,
            pose_step.as_ptr(),
            pose_step.len(),
            out.as_mut_ptr(),
            out.len(),
        )
    }
}

/// `system` 45, `counts` 3.
pub fn system_new(system: &mut [f64], counts: &mut [u16]) -> u64 {
    unsafe {
        ffi::pixel_step_system_new(
            system.as_mut_ptr(),
            system.len(),
            counts.as_mut_ptr(),
            counts.len(),
        )
    }
}

/// `system` 45, `counts` 3, `block` 59.
pub fn system_add(system: &mut [f64], counts: &mut [u16], block: &[f64], damping: f64) -> u64 {
    unsafe {
        ffi::pixel_step_system_add(
            system.as_mut_ptr(),
            system.len(),
            counts.as_mut_ptr(),
            counts.len(),
            block.as_ptr(),
            block.len(),
            damping,
        )
    }
}

/// `system` 45, `counts` 3.
pub fn system_finish_damping(system: &mut [f64], counts: &mut [u16], damping: f64) -> u64 {
    unsafe {
        ffi::pixel_step_system_finish_damping(
            system.as_mut_ptr(),
            system.len(),
            counts.as_mut_ptr(),
            counts.len(),
            damping,
        )
    }
}

/// `system` 45, `counts` 3, `out` 1.
pub fn system_is_valid(system: &[f64], counts: &[u16], out: &mut [u16]) -> u64 {
    unsafe {
        ffi::pixel_step_system_is_valid(
            system.as_ptr(),
            system.len(),
            counts.as_ptr(),
            counts.len(),
            out.as_mut_ptr(),
            out.len(),
        )
    }
}

/// `system` 45, `counts` 3, `out` 1.
pub fn system_scaled_gradient_inf_norm(system: &[f64], counts: &[u16], out: &mut [f64]) -> u64 {
    unsafe {
        ffi::pixel_step_system_scaled_gradient_inf_norm(
            system.as_ptr(),
            system.len(),
            counts.as_ptr(),
            counts.len(),
            out.as_mut_ptr(),
            out.len(),
        )
    }
}

/// `system` 45, `counts` 3, `step` 5, `out` 1.
pub fn system_predicted_reduction(
    system: &[f64],
    counts: &[u16],
    step: &[f64],
    damping: f64,
    point_damping_norm: f64,
    out: &mut [f64],
) -> u64 {
    unsafe {
        ffi::pixel_step_system_predicted_reduction(
            system.as_ptr(),
            system.len(),
            counts.as_ptr(),
            counts.len(),
            step.as_ptr(),
            step.len(),
            damping,
            point_damping_norm,
            out.as_mut_ptr(),
            out.len(),
        )
    }
}

/// For n points: `points` and `point_steps` 3n, `view1` and `view2` 2n,
/// `inverse_standard_deviations` n; `rig` 29, `out` 12, `weak` 1.
#[allow(clippy::too_many_arguments, reason = "as the C interface has them")]
pub fn step(
    points: &[f64],
    view1: &[f64],
    view2: &[f64],
    inverse_standard_deviations: &[f64],
    rig: &[f64],
    damping: f64,
    point_steps: &mut [f64],
    out: &mut [f64],
    weak: &mut [u16],
) -> u64 {
    unsafe {
        ffi::pixel_step_step(
            points.as_ptr(),
            points.len(),
            view1.as_ptr(),
            view1.len(),
            view2.as_ptr(),
            view2.len(),
            inverse_standard_deviations.as_ptr(),
            inverse_standard_deviations.len(),
            rig.as_ptr(),
            rig.len(),
            damping,
            point_steps.as_mut_ptr(),
            point_steps.len(),
            out.as_mut_ptr(),
            out.len(),
            weak.as_mut_ptr(),
            weak.len(),
        )
    }
}

/// `x` 5, `out` 5.
pub fn limit_pose_step(x: &[f64], out: &mut [f64]) -> u64 {
    unsafe { ffi::pixel_step_limit_pose_step(x.as_ptr(), x.len(), out.as_mut_ptr(), out.len()) }
}

/// Any record, any buffer; the answer is the list's length, and it is written where it fits.
pub fn write_list(record: &[u8], out: &mut [u8]) -> u64 {
    unsafe {
        ffi::pixel_step_write_list(record.as_ptr(), record.len(), out.as_mut_ptr(), out.len())
    }
}
