/*
 * The pixel alignment step of a two-camera rig: the C interface of libpixel_step.a, for x86-64.
 * Compiles as C99 and as C++. docs/SPECIFICATION.md, "C interface", says what each call answers.
 *
 * Numbers are binary64, and vectors and matrices flat arrays, row by row. Each array passes as a
 * pointer and then its length. It has to have that length in memory, and may not overlap an array
 * that the call writes: `out`, `point_steps`, `weak`, or a system that it changes. No call can
 * test either.
 *
 * A call with an `out` answers 0 and writes its result there, or answers a refusal as one number
 * and writes nothing; so does a call that changes a system. The refusal's parts are below: the
 * number of the row, and the view and the index, 0 where they have no sense. An array whose length
 * is not the one that is named beside it here is row 1. No call has a condition on the numbers:
 * every input ends in a result or in a refusal. The last call, `pixel_step_write_list`, has no
 * refusal of its own: it takes arrays of any length and answers a length.
 *
 *   row  1  a length does not fit
 *   row  2  more than 65,535 points
 *   row  3  damping not finite or below 0
 *   row  4  inverse standard deviation not finite or not above 0
 *   row  5  baseline not finite or not above 2^-46
 *   row  6  point coordinate not finite
 *   row  7  fewer than 5 points
 *   row  8  observation not finite
 *   row  9  the point is not projectable
 *   row 10  the block does not factor, or the system is not valid (a block did not factor, or the
 *           equations are not finite)
 *   row 11  the system of five equations is not solved
 *   row 12  the system's weak count is above its block count
 *   row 13  the system has 65,535 blocks already
 * and, in the line of a refused record's list alone,
 *   row 14  the record is longer than 34,559 bytes
 *   row 15  the record is out of form
 */
#ifndef PIXEL_STEP_H
#define PIXEL_STEP_H

#include <stdbool.h>
#include <stddef.h>
#include <stdint.h>

#ifdef __cplusplus
extern "C" {
#endif

/* The parts of a refusal */
#define PIXEL_STEP_NUMBER(refusal) ((uint32_t)((refusal) % 256))
#define PIXEL_STEP_VIEW(refusal) ((uint32_t)((refusal) / 256 % 256))
#define PIXEL_STEP_INDEX(refusal) ((uint32_t)((refusal) / 65536))

/* The number helpers: each has an answer for every binary64. */
double pixel_step_sqrt(double x);             /* IEEE 754's, correctly rounded */
double pixel_step_abs(double x);
bool pixel_step_is_finite(double x);
double pixel_step_recip(double x);            /* 1 / x */
double pixel_step_max(double x, double y);    /* a NaN is passed over; of unlike zeros +0 */
double pixel_step_min(double x, double y);    /* a NaN is passed over; of unlike zeros -0 */
uint64_t pixel_step_to_bits(double x);        /* of a NaN 7FF8000000000000 */
double pixel_step_from_bits(uint64_t bits);

/*
 * The projection of a point in the camera's frame, less what was observed. Row 9.
 * camera: fx, fy, cx, cy, skew (5); observation (2); point (3)
 * out: residual, then the Jacobian by rows (8)
 */
uint64_t pixel_step_pixel_projection(const double *camera, size_t camera_length,
                                     const double *observation, size_t observation_length,
                                     const double *point, size_t point_length,
                                     double *out, size_t out_length);

/* What damping is multiplied with. Row 10. matrix (9); out (3) */
uint64_t pixel_step_damping_diagonal(const double *matrix, size_t matrix_length,
                                     double *out, size_t out_length);

/* The matrix with damping added. Rows 3, 10. matrix (9); out (9) */
uint64_t pixel_step_damped_matrix(const double *matrix, size_t matrix_length, double damping,
                                  double *out, size_t out_length);

/*
 * The factor of a matrix that is damped already: its inverse, packed 00, 10, 11, 20, 21, 22.
 * Row 10. matrix (9); out (6)
 */
uint64_t pixel_step_factor_damped(const double *matrix, size_t matrix_length,
                                  double *out, size_t out_length);

/*
 * The factor with rcond at a damping: the packed inverse, then the reciprocal condition number.
 * Rows 3, 10. matrix (9); out (7)
 */
uint64_t pixel_step_factor_new(const double *matrix, size_t matrix_length, double damping,
                               double *out, size_t out_length);

/* The packed inverse times a vector. inverse (6); x (3); out (3) */
uint64_t pixel_step_factor_solve(const double *inverse, size_t inverse_length,
                                 const double *x, size_t x_length,
                                 double *out, size_t out_length);

/*
 * The reciprocal condition number of a matrix by its packed inverse. inverse (6); matrix (9);
 * out (1)
 */
uint64_t pixel_step_reciprocal_condition_number(const double *inverse, size_t inverse_length,
                                                const double *matrix, size_t matrix_length,
                                                double *out, size_t out_length);

/* The solution of a x = b by Cholesky's method. Row 11. a (25); b (5); out (5) */
uint64_t pixel_step_solve_positive_definite(const double *a, size_t a_length,
                                            const double *b, size_t b_length,
                                            double *out, size_t out_length);

/*
 * The block of a point: what it adds to the system. Rows 4, 9; row 9 has view 1 or 2.
 * rig (29): camera 1 and camera 2, 5 each; rotation, 9; translation, 3; translation basis, two
 * vectors of 3; baseline
 * correspondence (8): point, 3; where view 1 and view 2 saw it, 2 each; inverse standard deviation
 * out (59), a block: pose Hessian, 25; cross Hessian, 15; point Hessian, 9; pose gradient, 5; point
 * gradient, 3; cost; squared residual
 */
uint64_t pixel_step_linearize_point(const double *rig, size_t rig_length,
                                    const double *correspondence, size_t correspondence_length,
                                    double *out, size_t out_length);

/*
 * How a point moves with a step of the pose. Rows 3, 10. block (59); pose_step (5)
 * out: step, damping norm (4)
 */
uint64_t pixel_step_point_step_with_damping_norm(const double *block, size_t block_length,
                                                 double damping,
                                                 const double *pose_step, size_t pose_step_length,
                                                 double *out, size_t out_length);

/*
 * The reduced system has two arrays.
 * system (45): Hessian, 25; gradient, 5; cost; squared residual; full pose gradient, 5; pose
 * diagonal, 5; point model reduction; largest scaled point gradient; smallest rcond
 * counts (3): weak count; block count; flag, 0 for false and anything else for true, written as 0
 * or 1
 */

/* A new system. */
uint64_t pixel_step_system_new(double *system, size_t system_length,
                               uint16_t *counts, size_t counts_length);

/* Takes a block in. Rows 3, 12, 13. block (59) */
uint64_t pixel_step_system_add(double *system, size_t system_length,
                               uint16_t *counts, size_t counts_length,
                               const double *block, size_t block_length, double damping);

/* Adds the damping to the Hessian's diagonal. Row 3. */
uint64_t pixel_step_system_finish_damping(double *system, size_t system_length,
                                          uint16_t *counts, size_t counts_length, double damping);

/* Whether the flag is true, and gradient and Hessian are finite. out: 0 or 1 (1) */
uint64_t pixel_step_system_is_valid(const double *system, size_t system_length,
                                    const uint16_t *counts, size_t counts_length,
                                    uint16_t *out, size_t out_length);

/* The largest scaled gradient entry of all points and of the pose. out (1) */
uint64_t pixel_step_system_scaled_gradient_inf_norm(const double *system, size_t system_length,
                                                    const uint16_t *counts, size_t counts_length,
                                                    double *out, size_t out_length);

/* What a step of the pose is predicted to gain. Row 3. step (5); out (1) */
uint64_t pixel_step_system_predicted_reduction(const double *system, size_t system_length,
                                               const uint16_t *counts, size_t counts_length,
                                               const double *step, size_t step_length,
                                               double damping, double point_damping_norm,
                                               double *out, size_t out_length);

/*
 * One whole step for n points. Rows 1 to 11: the first that holds, at the lowest index; row 8 looks
 * through all of view 1 first, row 9 takes both views of a point before the next point.
 * points (3n); view1 and view2 (2n each); inverse_standard_deviations (n); rig
 * (29), as above
 * point_steps (3n): the step of each point, before any product with the baseline
 * out (12): step of the pose, limited, 5; cost; squared residual; gradient norm; smallest rcond;
 * RMS of the point steps; their damping norm; predicted reduction
 * weak (1): weak count
 */
uint64_t pixel_step_step(const double *points, size_t points_length,
                         const double *view1, size_t view1_length,
                         const double *view2, size_t view2_length,
                         const double *inverse_standard_deviations,
                         size_t inverse_standard_deviations_length,
                         const double *rig, size_t rig_length, double damping,
                         double *point_steps, size_t point_steps_length,
                         double *out, size_t out_length,
                         uint16_t *weak, size_t weak_length);

/* A step of the pose, limited to 0.5 in rotation and in translation. x (5); out (5) */
uint64_t pixel_step_limit_pose_step(const double *x, size_t x_length,
                                    double *out, size_t out_length);

/*
 * The list of a run record, or the one line of a record that is refused. Answers the list's length;
 * the list is written into the front of out if it fits there, and else out is left as it is. 4,057
 * bytes always suffice.
 */
uint64_t pixel_step_write_list(const uint8_t *record, size_t record_length,
                               uint8_t *out, size_t out_length);

#ifdef __cplusplus
}
#endif

#endif
