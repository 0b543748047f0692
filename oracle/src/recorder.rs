//! What the stand-ins of the outer loop are told and what they write down, one
//! set per thread. Everything starts as NaN. No compared number passes here but
//! as a copy of what the original handed over.

use std::cell::Cell;

#[derive(Clone, Copy)]
pub(crate) struct Record {
    /// Handed in: tangent basis, damping, whether a step is accepted.
    pub basis: [[f64; 3]; 2],
    pub damping: f64,
    pub accept: bool,
    /// Written down: the limited pose step and both reductions.
    pub rotation_step: [f64; 3],
    pub direction_step: [f64; 2],
    pub actual: f64,
    pub predicted: f64,
    /// Calls of `project` since a candidate began, if one is being tried.
    candidate_calls: Option<usize>,
}

const EMPTY: Record = Record {
    basis: [[f64::NAN; 3]; 2],
    damping: f64::NAN,
    accept: false,
    rotation_step: [f64::NAN; 3],
    direction_step: [f64::NAN; 2],
    actual: f64::NAN,
    predicted: f64::NAN,
    candidate_calls: None,
};

thread_local! {
    static RECORD: Cell<Record> = const { Cell::new(EMPTY) };
}

fn update(change: impl FnOnce(&mut Record)) {
    let mut record = RECORD.get();
    change(&mut record);
    RECORD.set(record);
}

/// Starts a new record with what is handed in.
pub(crate) fn begin(basis: [[f64; 3]; 2], damping: f64, accept: bool) {
    RECORD.set(Record {
        basis,
        damping,
        accept,
        ..EMPTY
    });
}

/// Ends the record and gives it out.
pub(crate) fn finish() -> Record {
    RECORD.replace(EMPTY)
}

pub(crate) fn basis() -> [[f64; 3]; 2] {
    RECORD.get().basis
}

pub(crate) fn damping() -> f64 {
    RECORD.get().damping
}

pub(crate) fn rotation_step(step: [f64; 3]) {
    update(|record| record.rotation_step = step);
}

pub(crate) fn direction_step(step: [f64; 2]) {
    update(|record| record.direction_step = step);
}

pub(crate) fn gain(actual: f64, predicted: f64) -> bool {
    update(|record| {
        record.actual = actual;
        record.predicted = predicted;
    });
    RECORD.get().accept
}

pub(crate) fn begin_candidate() {
    update(|record| record.candidate_calls = Some(0));
}

pub(crate) fn end_candidate() {
    update(|record| record.candidate_calls = None);
}

/// Counts one call of `project` within `candidate_cost`: of four calls for each
/// point the first two linearize and the last two look at the moved point.
pub(crate) fn looks_at_moved_point() -> bool {
    let calls = RECORD.get().candidate_calls;
    update(|record| record.candidate_calls = calls.map(|count| count + 1));
    calls.is_some_and(|count| count % 4 >= 2)
}
