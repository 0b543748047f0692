//! Run records from a seed: in form, refused by each row, and out of form.

use crate::generate::{Case, Source, any_problem, problem};
use crate::record::LONGEST;
use crate::refused::refused;

/// Where the five fields before the points begin.
const HEADER: [usize; 5] = [0, 43, 86, 185, 244];

/// Where the first point begins, and the bytes of each.
const POINTS: usize = 255;
const POINT: usize = 67;

/// The most points that a record can hold.
const MOST: usize = (LONGEST - POINTS) / POINT;

/// The record of a plate, whose lengths must belong to one count.
pub fn record(case: &Case) -> Vec<u8> {
    let rig = &case.rig;
    let mut record = Vec::with_capacity(POINTS + POINT * case.count());
    push(&mut record, 1, &[&rig.cameras[0]]);
    push(&mut record, 2, &[&rig.cameras[1]]);
    push(&mut record, 3, &[&rig.rotation, &rig.translation]);
    push(&mut record, 4, &[&rig.basis, &[rig.baseline]]);
    push(&mut record, 5, &[&[case.damping]]);
    for index in 0..case.count() {
        let correspondence = case.correspondence(index);
        let last = [correspondence.inverse_deviation];
        push(
            &mut record,
            6,
            &[
                &correspondence.point,
                &correspondence.view1,
                &correspondence.view2,
                &last,
            ],
        );
    }
    record
}

/// Adds a field.
fn push(record: &mut Vec<u8>, tag: u8, parts: &[&[f64]]) {
    let numbers = parts.concat();
    let [low, high, ..] = (8 * numbers.len()).to_le_bytes();
    record.extend([tag, low, high]);
    record.extend(numbers.iter().flat_map(|number| number.to_le_bytes()));
}

/// Where each field of a record with so many points begins.
pub fn starts(points: usize) -> Vec<usize> {
    let points = (0..points).map(|index| POINTS + POINT * index);
    HEADER.into_iter().chain(points).collect()
}

/// A record of any sort. Each row that it can be refused by has its share.
pub fn any_record(source: &mut Source) -> Vec<u8> {
    match source.below(40) {
        0..10 => in_form(source),
        10..28 => by_row(source),
        28..32 => too_long(source),
        _ => damaged(source),
    }
}

/// A record in form, of a plate that can still be refused.
fn in_form(source: &mut Source) -> Vec<u8> {
    let n = match source.below(100) {
        0 => MOST,
        1 => 41 + source.below(MOST - 41),
        2..10 => source.below(5),
        _ => 5 + source.below(36),
    };
    let case = match source.below(4) {
        0 => wild(source, n),
        1 => far_points(source, n),
        _ => any_problem(source, n),
    };
    record(&case)
}

/// A plate in which some numbers, or all, have any exponent and their own sign.
fn wild(source: &mut Source, n: usize) -> Case {
    let mut case = problem(source, n);
    let times = [1, 4, 40][source.below(3)];
    for place in case.places() {
        if source.once_in(times) {
            *place = source.finite().abs().copysign(*place);
        }
    }
    case
}

/// A plate at damping zero, with correspondences so far away that some are weak and some
/// do not factor.
fn far_points(source: &mut Source, n: usize) -> Case {
    let mut case = problem(source, n);
    case.damping = if source.once_in(2) { 0.0 } else { -0.0 };
    for point in case.points.as_chunks_mut::<3>().0 {
        if source.once_in(2) {
            let factor = (1_u64 << (16 + source.below(7))) as f64;
            *point = point.map(|value| value * factor);
        }
    }
    case
}

/// Refused by a row from 3 to 9; in half of the cases a later one holds too.
fn by_row(source: &mut Source) -> Vec<u8> {
    let first = 3 + source.below(7);
    let second = first + source.below(10 - first);
    let rows = if source.once_in(2) {
        vec![first as u32]
    } else {
        vec![first as u32, second as u32]
    };
    record(&refused(source, &rows).expect("no problem with row 2"))
}

/// Longer than a record may be; most are in form but for that.
fn too_long(source: &mut Source) -> Vec<u8> {
    let points = MOST + source.below(2);
    let mut record = record(&any_problem(source, points));
    let least = usize::from(points == MOST);
    let more = [least, POINT, 1 + source.below(5000)][source.below(3)];
    record.resize(record.len() + more, source.next_bits() as u8);
    if source.once_in(4) {
        record.fill(0);
    }
    record
}

/// A record with one or two faults of form. Some stay in form all the same,
/// such as one that loses a point.
fn damaged(source: &mut Source) -> Vec<u8> {
    let n = match source.below(40) {
        0 => MOST,
        1..10 => source.below(5),
        _ => 5 + source.below(8),
    };
    let mut fields = split(&record(&problem(source, n)), n);
    let fault = source.below(7);
    let place = source.below(fields.len());
    let other = source.below(fields.len());
    match fault {
        0 | 1 => break_start(source, &mut fields[place]),
        2 => fields.swap(place, other),
        3 => fields.insert(other, fields[place].clone()),
        4 => drop(fields.remove(place)),
        5 => insert(source, &mut fields[place]),
        _ => {}
    }
    let mut record = fields.concat();
    if fault == 6 || source.once_in(8) {
        cut(source, &mut record);
    }
    record
}

/// The fields of a record with so many points.
fn split(record: &[u8], points: usize) -> Vec<Vec<u8>> {
    let mut starts = starts(points);
    starts.push(record.len());
    let fields = starts
        .windows(2)
        .map(|ends| record[ends[0]..ends[1]].to_vec());
    fields.collect()
}

/// Changes the tag or one of the two bytes of the length.
fn break_start(source: &mut Source, field: &mut [u8]) {
    let byte = &mut field[source.below(3)];
    *byte = match source.below(4) {
        0 => byte.wrapping_add(1),
        1 => byte.wrapping_sub(1),
        2 => *byte ^ 1 << source.below(8),
        _ => source.next_bits() as u8,
    };
}

/// Puts up to nine bytes somewhere into a field, in front of it or behind it.
fn insert(source: &mut Source, field: &mut Vec<u8>) {
    let place = [0, field.len(), source.below(field.len())][source.below(3)];
    for _ in 0..=source.below(9) {
        field.insert(place, source.next_bits() as u8);
    }
}

/// Cuts a record off, often within three bytes of where a field begins.
fn cut(source: &mut Source, record: &mut Vec<u8>) {
    let place = if source.once_in(2) {
        source.below(record.len() + 1)
    } else {
        let starts = starts(record.len().saturating_sub(POINTS) / POINT);
        starts[source.below(starts.len())] + source.below(4)
    };
    record.truncate(place);
}
