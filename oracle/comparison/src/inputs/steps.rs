//! Whole problems with their room, and steps of the pose.

use oracle::generate::{self, Case, FAULTS, Fault, Source};
use oracle::refused::{ROWS, refused};

use super::{nudged, zero};
use crate::function::{Kind, Walk};
use crate::input::{Input, fill};

/// The most points that a problem has, and one more, by kinds of problems and of
/// what is wrong with them.
pub const MANY_POINTS: Walk = Walk {
    count: 16,
    input: |case, source| {
        let rows = case as u32 / 2;
        lent(&match case % 2 {
            0 if rows < 4 => generate::problem(source, 65_535),
            0 => spoilt(source, 65_535),
            _ => refused(source, &[2, rows + 3]).unwrap_or_else(|| two_short(source)),
        })
    },
};

/// Too many points, and a view that does not belong to them.
fn two_short(source: &mut Source) -> Case {
    let mut case = generate::faulty(source, 65_536, Fault::EqualPoints);
    case.view2.pop();
    case
}

/// A problem of any kind: half of them are refused by a row of their own.
pub fn problem(source: &mut Source) -> Input {
    let count = points(source);
    let case = match source.below(20) {
        0..=10 => broken(source, 1),
        11 => broken(source, 2),
        12..=16 => generate::any_problem(source, count),
        17 => generate::faulty(source, count, Fault::Scaled),
        18 => spoilt(source, count),
        _ => generate::problem(source, count),
    };
    let mut input = lent(&case);
    if source.once_in(20) {
        misfit(source, &mut input);
    }
    input
}

/// The same with five points and the lengths that belong to them.
pub fn five_points(source: &mut Source) -> Input {
    loop {
        let input = problem(source);
        let lengths: Vec<_> = input.0.iter().map(Vec::len).collect();
        if lengths == [15, 10, 10, 5, 29, 1, 15] {
            return input;
        }
    }
}

/// Mostly few points, now and then up to 600.
fn points(source: &mut Source) -> usize {
    match source.below(40) {
        0 => source.below(601),
        1..=3 => source.below(65),
        4 => source.below(6),
        _ => 5 + source.below(12),
    }
}

/// With a fault of any kind.
fn spoilt(source: &mut Source, count: usize) -> Case {
    let fault = FAULTS[source.below(FAULTS.len())];
    generate::faulty(source, count, fault)
}

/// Refused by so many rows; 65,536 points come in the walk alone.
fn broken(source: &mut Source, rows: usize) -> Case {
    loop {
        let rows: Vec<_> = (0..rows).map(|_| ROWS[source.below(ROWS.len())]).collect();
        if !rows.contains(&2)
            && let Some(case) = refused(source, &rows)
        {
            return case;
        }
    }
}

/// The arguments of a case, with room for its steps.
fn lent(case: &Case) -> Input {
    let mut input = Input::of(&[
        &case.points,
        &case.view1,
        &case.view2,
        &case.inverse_deviations,
        &case.rig.numbers(),
        &[case.damping],
    ]);
    input.0.push(vec![fill(Kind::Room); 3 * case.count()]);
    input
}

/// One length that does not fit, or two whose sum would.
fn misfit(source: &mut Source, input: &mut Input) {
    const OPEN: [usize; 5] = [0, 1, 2, 3, 6];
    let chosen = source.below(OPEN.len());
    let list = &mut input.0[OPEN[chosen]];
    match source.below(4) {
        0 => list.clear(),
        1 => list.truncate(list.len().saturating_sub(1)),
        2 => list.push(fill(Kind::Room)),
        _ => {
            list.push(fill(Kind::Room));
            let other = (chosen + 1 + source.below(OPEN.len() - 1)) % OPEN.len();
            input.0[OPEN[other]].pop();
        }
    }
}

/// A step of the pose: of every size, and close to the limit of 0.5.
pub fn pose_step(source: &mut Source) -> [f64; 5] {
    let mut step = source.numbers::<5>();
    match source.below(8) {
        0..=3 => return step,
        4 => step = step.map(|_| zero(source)),
        5 => {
            let factor = source.power();
            step = source.moderates().map(|value| value * factor);
        }
        _ => {
            let [a, b, c, d, e] = source.moderates();
            let (turn, move_) = ((a * a + b * b + c * c).sqrt(), (d * d + e * e).sqrt());
            let half = 0.5 / turn.max(move_);
            step = [a, b, c, d, e].map(|value| value * half);
        }
    }
    let place = source.below(5);
    step[place] = nudged(source, step[place]);
    step
}
