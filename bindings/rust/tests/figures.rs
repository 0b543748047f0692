//! Figures of docs/SPECIFICATION.md, "Worked figures", and each refusal, through
//! the static library.

use pixel_step::{Refusal, slices};

const EMPTY: [f64; 0] = [];

/// A row without view and index.
fn row(number: u8) -> Refusal {
    Refusal {
        number,
        view: 0,
        index: 0,
    }
}

fn diagonal(entries: [f64; 3]) -> [f64; 9] {
    std::array::from_fn(|i| if i % 4 == 0 { entries[i / 4] } else { 0.0 })
}

#[test]
fn roots() {
    assert_eq!(pixel_step::sqrt(4.0), 2.0);
    assert_eq!(pixel_step::sqrt(2.0).to_bits(), 0x3FF6_A09E_667F_3BCD);
    assert_eq!(pixel_step::sqrt(-0.0).to_bits(), (-0.0_f64).to_bits());
    assert!(pixel_step::sqrt(-1.0).is_nan());
}

#[test]
fn numbers() {
    assert_eq!(pixel_step::abs(-3.0), 3.0);
    assert_eq!(pixel_step::recip(4.0), 0.25);
    assert_eq!(pixel_step::max(f64::NAN, 1.0), 1.0);
    assert_eq!(pixel_step::max(-0.0, 0.0).to_bits(), 0);
    assert_eq!(pixel_step::min(0.0, -0.0).to_bits(), 1 << 63);
    assert!(pixel_step::is_finite(f64::MAX));
    assert!(!pixel_step::is_finite(f64::NAN));
    assert_eq!(pixel_step::to_bits(1.0), 0x3FF0_0000_0000_0000);
    assert_eq!(pixel_step::to_bits(-f64::NAN), 0x7FF8_0000_0000_0000);
    assert_eq!(pixel_step::from_bits(0x4000_0000_0000_0000), 2.0);
}

#[test]
fn projection() {
    let camera = [2.0, 2.0, 1.0, 1.0, 0.0];
    let seen = pixel_step::pixel_projection(&camera, &[1.5, 1.0], &[1.0, 2.0, 4.0]);
    let seen = seen.expect("in front of the camera");
    assert_eq!(seen.residual, [0.0, 1.0]);
    assert_eq!(seen.jacobian, [0.5, 0.0, -0.125, 0.0, 0.5, -0.25]);
    let behind = pixel_step::pixel_projection(&camera, &[0.0; 2], &[0.0; 3]);
    assert_eq!(behind, Err(row(9)));
}

#[test]
fn factors() {
    let matrix = diagonal([4.0, 1.0, 1.0]);
    let lone = pixel_step::factor_new(&matrix, 0.0).expect("factors");
    assert_eq!(lone.rcond, 0.25);
    assert_eq!(pixel_step::factor_damped(&matrix), Ok(lone.inverse));
    let solved = pixel_step::factor_solve(&lone.inverse, &[4.0, 3.0, -2.0]);
    assert_eq!(solved, Ok([1.0, 3.0, -2.0]));
    let rcond = pixel_step::reciprocal_condition_number(&lone.inverse, &matrix);
    assert_eq!(rcond, Ok(0.25));
}

#[test]
fn factors_that_are_refused() {
    let flat = diagonal([1.0, 1.0, 0.0]);
    assert_eq!(pixel_step::factor_new(&flat, -1.0), Err(row(3)));
    assert_eq!(pixel_step::factor_new(&flat, 0.0), Err(row(10)));
    assert_eq!(pixel_step::factor_damped(&flat), Err(row(10)));
    assert!(pixel_step::factor_new(&flat, 1.0).is_ok());
}

#[test]
fn damping() {
    let matrix = diagonal([1.0, 2.0, 0.0]);
    let floor = 2.0 * 64.0 * f64::EPSILON;
    assert_eq!(pixel_step::damping_diagonal(&matrix), Ok([1.0, 2.0, floor]));
    let damped = pixel_step::damped_matrix(&matrix, 1.0);
    assert_eq!(damped, Ok(diagonal([2.0, 4.0, floor])));
    assert_eq!(pixel_step::damping_diagonal(&[0.0; 9]), Err(row(10)));
    assert_eq!(pixel_step::damped_matrix(&[0.0; 9], 1.0), Err(row(10)));
    assert_eq!(pixel_step::damped_matrix(&[0.0; 9], -1.0), Err(row(3)));
}

#[test]
fn solve() {
    let a = std::array::from_fn(|i| if i % 6 == 0 { 4.0 } else { 0.0 });
    let x = pixel_step::solve_positive_definite(&a, &[4.0, 8.0, -4.0, 0.0, 2.0]);
    assert_eq!(x, Ok([1.0, 2.0, -1.0, 0.0, 0.5]));
    let none = pixel_step::solve_positive_definite(&[0.0; 25], &[0.0; 5]);
    assert_eq!(none, Err(row(11)));
}

/// A length that does not fit is row 1, and the room stays as it was.
#[test]
fn lengths() {
    let (five, nine, six) = ([1.0; 5], [1.0; 9], [1.0; 6]);
    let mut room = [7.0; 9];
    let codes = [
        slices::pixel_projection(&five, &five, &five, &mut room[..8]),
        slices::damping_diagonal(&nine, &mut room),
        slices::damped_matrix(&nine[..8], 0.0, &mut room),
        slices::factor_damped(&nine, &mut room),
        slices::factor_new(&EMPTY, f64::NAN, &mut room[..7]),
        slices::factor_solve(&six, &five, &mut room[..3]),
        slices::reciprocal_condition_number(&nine, &six, &mut room[..1]),
        slices::solve_positive_definite(&nine, &five, &mut room[..5]),
    ];
    assert_eq!(codes, [1; 8]);
    assert_eq!(room, [7.0; 9]);
}
