//! The proved pixel step, called from Rust. Matrices are flat, row by row; a
//! packed inverse is i00, i10, i11, i20, i21, i22. Where a call refuses, it
//! gives the row, view and index as a [`Refusal`].

mod ffi;
mod refusal;
pub mod slices;
mod step;
mod system;

pub use refusal::Refusal;
pub use step::{Problem, Step, limit_pose_step, step};
pub use system::{
    Block, Correspondence, PointStep, Rig, System, linearize_point, point_step_with_damping_norm,
};

/// A residual and its derivative by the point, row by row.
#[derive(Clone, Copy, Debug, PartialEq)]
pub struct Projection {
    pub residual: [f64; 2],
    pub jacobian: [f64; 6],
}

/// The packed inverse of the damped matrix, and rcond of the undamped one.
#[derive(Clone, Copy, Debug, PartialEq)]
pub struct LoneFactor {
    pub inverse: [f64; 6],
    pub rcond: f64,
}

/// The correctly rounded root.
pub fn sqrt(x: f64) -> f64 {
    ffi::pixel_step_sqrt(x)
}

/// The absolute value.
pub fn abs(x: f64) -> f64 {
    ffi::pixel_step_abs(x)
}

/// 1 ÷ x.
pub fn recip(x: f64) -> f64 {
    ffi::pixel_step_recip(x)
}

/// The larger, passing over a NaN; +0 of unlike zeros.
pub fn max(x: f64, y: f64) -> f64 {
    ffi::pixel_step_max(x, y)
}

/// The smaller, passing over a NaN; −0 of unlike zeros.
pub fn min(x: f64, y: f64) -> f64 {
    ffi::pixel_step_min(x, y)
}

/// Neither infinite nor NaN.
pub fn is_finite(x: f64) -> bool {
    ffi::pixel_step_is_finite(x)
}

/// The pattern; 7FF8000000000000 for every NaN.
pub fn to_bits(x: f64) -> u64 {
    ffi::pixel_step_to_bits(x)
}

/// The number with this pattern.
pub fn from_bits(bits: u64) -> f64 {
    ffi::pixel_step_from_bits(bits)
}

/// The camera is fx, fy, cx, cy, skew. Row 9.
pub fn pixel_projection(
    camera: &[f64; 5],
    observation: &[f64; 2],
    point: &[f64; 3],
) -> Result<Projection, Refusal> {
    let [u, v, jacobian @ ..] =
        filled::<8>(|out| slices::pixel_projection(camera, observation, point, out))?;
    Ok(Projection {
        residual: [u, v],
        jacobian,
    })
}

/// What damping is multiplied with. Row 10.
pub fn damping_diagonal(matrix: &[f64; 9]) -> Result<[f64; 3], Refusal> {
    filled(|out| slices::damping_diagonal(matrix, out))
}

/// The matrix with damping on its diagonal. Rows 3 and 10.
pub fn damped_matrix(matrix: &[f64; 9], damping: f64) -> Result<[f64; 9], Refusal> {
    filled(|out| slices::damped_matrix(matrix, damping, out))
}

/// The packed inverse of a matrix that is damped already. Row 10.
pub fn factor_damped(matrix: &[f64; 9]) -> Result<[f64; 6], Refusal> {
    filled(|out| slices::factor_damped(matrix, out))
}

/// The factor with rcond of the matrix at a damping. Rows 3 and 10.
pub fn factor_new(matrix: &[f64; 9], damping: f64) -> Result<LoneFactor, Refusal> {
    let [inverse @ .., rcond] = filled::<7>(|out| slices::factor_new(matrix, damping, out))?;
    Ok(LoneFactor { inverse, rcond })
}

/// The packed inverse times the right-hand side. Never refused.
pub fn factor_solve(inverse: &[f64; 6], rhs: &[f64; 3]) -> Result<[f64; 3], Refusal> {
    filled(|out| slices::factor_solve(inverse, rhs, out))
}

/// rcond of a matrix with this packed inverse. Never refused.
pub fn reciprocal_condition_number(inverse: &[f64; 6], matrix: &[f64; 9]) -> Result<f64, Refusal> {
    filled(|out| slices::reciprocal_condition_number(inverse, matrix, out)).map(|[rcond]| rcond)
}

/// The solution of a x = b by Cholesky's method. Row 11.
pub fn solve_positive_definite(a: &[f64; 25], b: &[f64; 5]) -> Result<[f64; 5], Refusal> {
    filled(|out| slices::solve_positive_definite(a, b, out))
}

/// Bytes that every list of a run record fits into.
pub const MAX_LIST: usize = 4057;

/// The list of a run record, in the front of `out`: its length, or, where it does
/// not fit and `out` is left alone, the length that it would have.
pub fn write_list(record: &[u8], out: &mut [u8]) -> Result<usize, usize> {
    let length = slices::write_list(record, out) as usize;
    if length <= out.len() {
        Ok(length)
    } else {
        Err(length)
    }
}

/// The `N` numbers that a call writes where it answers 0.
fn filled<const N: usize>(call: impl FnOnce(&mut [f64]) -> u64) -> Result<[f64; N], Refusal> {
    let mut out = [0.0; N];
    Refusal::from_code(call(&mut out)).map_or(Ok(out), Err)
}
