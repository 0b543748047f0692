//! The C interface, as the static library has it. A slice is a pointer, then a
//! length; the answer is 0 or a refusal's code.

#[link(name = "pixel_step", kind = "static")]
unsafe extern "C" {
    pub safe fn pixel_step_sqrt(x: f64) -> f64;
    pub safe fn pixel_step_abs(x: f64) -> f64;
    pub safe fn pixel_step_recip(x: f64) -> f64;
    pub safe fn pixel_step_max(x: f64, y: f64) -> f64;
    pub safe fn pixel_step_min(x: f64, y: f64) -> f64;
    pub safe fn pixel_step_is_finite(x: f64) -> bool;
    pub safe fn pixel_step_to_bits(x: f64) -> u64;
    pub safe fn pixel_step_from_bits(bits: u64) -> f64;

    pub fn pixel_step_pixel_projection(
        camera: *const f64,
        camera_len: usize,
        observation: *const f64,
        observation_len: usize,
        point: *const f64,
        point_len: usize,
        out: *mut f64,
        out_len: usize,
    ) -> u64;

    pub fn pixel_step_damping_diagonal(
        matrix: *const f64,
        matrix_len: usize,
        out: *mut f64,
        out_len: usize,
    ) -> u64;

    pub fn pixel_step_damped_matrix(
        matrix: *const f64,
        matrix_len: usize,
        damping: f64,
        out: *mut f64,
        out_len: usize,
    ) -> u64;

    pub fn pixel_step_factor_damped(
        matrix: *const f64,
        matrix_len: usize,
        out: *mut f64,
        out_len: usize,
    ) -> u64;

    pub fn pixel_step_factor_new(
        matrix: *const f64,
        matrix_len: usize,
        damping: f64,
        out: *mut f64,
        out_len: usize,
    ) -> u64;

    pub fn pixel_step_factor_solve(
        inverse: *const f64,
        inverse_len: usize,
        rhs: *const f64,
        rhs_len: usize,
        out: *mut f64,
        out_len: usize,
    ) -> u64;

    pub fn pixel_step_reciprocal_condition_number(
        inverse: *const f64,
        inverse_len: usize,
        matrix: *const f64,
        matrix_len: usize,
        out: *mut f64,
        out_len: usize,
    ) -> u64;

    pub fn pixel_step_solve_positive_definite(
        a: *const f64,
        a_len: usize,
        b: *const f64,
        b_len: usize,
        out: *mut f64,
        out_len: usize,
    ) -> u64;

    pub fn pixel_step_linearize_point(
        rig: *const f64,
        rig_len: usize,
        correspondence: *const f64,
        correspondence_len: usize,
        out: *mut f64,
        out_len: usize,
    ) -> u64;

    pub fn pixel_step_point_step_with_damping_norm(
        block: *const f64,
        block_len: usize,
        damping: f64,
        pose_step: *const f64,
        pose_step_len: usize,
        out: *mut f64,
        out_len: usize,
    ) -> u64;

    pub fn pixel_step_system_new(
        system: *mut f64,
        system_len: usize,
        counts: *mut u16,
        counts_len: usize,
    ) -> u64;

    pub fn pixel_step_system_add(
        system: *mut f64,
        system_len: usize,
        counts: *mut u16,
        counts_len: usize,
        block: *const f64,
        block_len: usize,
        damping: f64,
    ) -> u64;

    pub fn pixel_step_system_finish_damping(
        system: *mut f64,
        system_len: usize,
        counts: *mut u16,
        counts_len: usize,
        damping: f64,
    ) -> u64;

    pub fn pixel_step_system_is_valid(
        system: *const f64,
        system_len: usize,
        counts: *const u16,
        counts_len: usize,
        out: *mut u16,
        out_len: usize,
    ) -> u64;

    pub fn pixel_step_system_scaled_gradient_inf_norm(
        system: *const f64,
        system_len: usize,
        counts: *const u16,
        counts_len: usize,
        out: *mut f64,
        out_len: usize,
    ) -> u64;

    pub fn pixel_step_system_predicted_reduction(
        system: *const f64,
        system_len: usize,
        counts: *const u16,
        counts_len: usize,
        step: *const f64,
        step_len: usize,
        damping: f64,
        point_damping_norm: f64,
        out: *mut f64,
        out_len: usize,
    ) -> u64;

    pub fn pixel_step_step(
        points: *const f64,
        points_len: usize,
        view1: *const f64,
        view1_len: usize,
        view2: *const f64,
        view2_len: usize,
        inverse_standard_deviations: *const f64,
        inverse_standard_deviations_len: usize,
        rig: *const f64,
        rig_len: usize,
        damping: f64,
        point_steps: *mut f64,
        point_steps_len: usize,
        out: *mut f64,
        out_len: usize,
        weak: *mut u16,
        weak_len: usize,
    ) -> u64;

    pub fn pixel_step_limit_pose_step(
        x: *const f64,
        x_len: usize,
        out: *mut f64,
        out_len: usize,
    ) -> u64;

    pub fn pixel_step_write_list(
        record: *const u8,
        record_len: usize,
        out: *mut u8,
        out_len: usize,
    ) -> u64;
}
