//! Plates by the rows that refuse them: each row alone, and any two together,
//! so that it shows which one comes first.

use crate::generate::{Case, Source, problem};

/// The rows of the whole step, in the order in which they are tested.
pub const ROWS: [u32; 11] = [1, 2, 3, 4, 5, 6, 7, 8, 9, 10, 11];

const NOT_FINITE: [f64; 3] = [f64::NAN, f64::INFINITY, f64::NEG_INFINITY];

/// A plate that is sound but for the conditions of these rows, which all hold.
/// There is none with both too many points and too few.
pub fn refused(source: &mut Source, rows: &[u32]) -> Option<Case> {
    let count = match (rows.contains(&2), rows.contains(&7)) {
        (true, true) => return None,
        (true, false) => 65_536,
        (false, true) => 1 + source.below(4),
        (false, false) => 5 + source.below(8),
    };
    let mut case = problem(source, count);
    case.damping = 0.0;
    // A correspondence for each row, so that none mends what another broke.
    let index = source.below(count);
    for (place, &row) in rows.iter().enumerate() {
        break_row(source, &mut case, row, (index + place) % count);
    }
    if rows.contains(&1) {
        shorten(source, &mut case);
    }
    Some(case)
}

/// Makes the row's condition hold, at this correspondence if it is about one. Rows 1, 2
/// and 7 are matters of length.
fn break_row(source: &mut Source, case: &mut Case, row: u32, index: usize) {
    match row {
        3 => case.damping = one_of(source, &[-1.0, -f64::from_bits(1)]),
        4 => case.inverse_deviations[index] = one_of(source, &[0.0, -0.0, -1.0]),
        5 => case.rig.baseline = one_of(source, &[64.0 * f64::EPSILON, 0.0, -1.0]),
        6 => case.points[3 * index + source.below(3)] = one_of(source, &[]),
        8 if source.once_in(2) => case.view1[2 * index] = one_of(source, &[]),
        8 => case.view2[2 * index + 1] = one_of(source, &[]),
        9 => case.points[3 * index..][..3].fill(0.0),
        // Its square overflows, and the block does not factor.
        10 => case.inverse_deviations[index] = 1e200,
        11 => case.rig.basis = [0.0; 6],
        _ => {}
    }
}

/// One of these, or a number that is not finite.
fn one_of(source: &mut Source, numbers: &[f64]) -> f64 {
    let choice = source.below(numbers.len() + NOT_FINITE.len());
    *numbers
        .get(choice)
        .unwrap_or_else(|| &NOT_FINITE[choice - numbers.len()])
}

/// Takes a number from one of the four lists.
fn shorten(source: &mut Source, case: &mut Case) {
    match source.below(4) {
        0 => case.points.pop(),
        1 => case.view1.pop(),
        2 => case.view2.pop(),
        _ => case.inverse_deviations.pop(),
    };
}
