//! One whole step: rows 1 to 11, then the original's part from `reduced_system`
//! to `predicted_reduction`. Seeded problems are too small for row 2, which the
//! walk brings.

use oracle::optimizer::{Problem, whole_step};
use oracle::schur::Rig;
use pixel_step::{Refusal, slices};

use crate::function::{Answer, Argument, Function, Kind, count_room, lent, number, open, room};
use crate::input::Input;
use crate::inputs;
use crate::memory::{Lent, Rooms};

pub const FUNCTION: Function = Function {
    name: "step",
    arguments: &[
        open("points", Kind::Numbers),
        open("view1", Kind::Numbers),
        open("view2", Kind::Numbers),
        open("inverse_deviations", Kind::Numbers),
        lent("rig", 29),
        number("damping"),
        open("room", Kind::Room),
        room(12),
        WEAK,
    ],
    rows: &[1, 3, 4, 5, 6, 7, 8, 9, 10, 11],
    walk: Some(inputs::MANY_POINTS),
    generate: inputs::problem,
    port: step,
    oracle: stepped,
    plain: None,
};

/// The same with five points, so that each argument has one length: what a sample
/// has lines of.
pub const FIVE_POINTS: Function = Function {
    arguments: &[
        lent("points", 15),
        lent("view1", 10),
        lent("view2", 10),
        lent("inverse_deviations", 5),
        lent("rig", 29),
        number("damping"),
        Argument {
            name: "room",
            ..room(15)
        },
        room(12),
        WEAK,
    ],
    rows: &[3, 4, 5, 6, 8, 9, 10, 11],
    walk: None,
    generate: inputs::five_points,
    ..FUNCTION
};

const WEAK: Argument = Argument {
    name: "weak",
    ..count_room(1)
};

fn step(lent: &Lent<'_>, rooms: &mut Rooms<'_>) -> u64 {
    let [points, view1, view2, deviations, rig] = [0, 1, 2, 3, 4].map(|i| lent.numbers(i));
    let damping = lent.number(5);
    let [steps, out] = &mut rooms.numbers[..] else {
        unreachable!("room for the steps and the numbers");
    };
    let weak = &mut *rooms.counts[0];
    slices::step(
        points, view1, view2, deviations, rig, damping, steps, out, weak,
    )
}

fn stepped(input: &Input) -> Answer {
    let [points, view1, view2, deviations] = [0, 1, 2, 3].map(|place| input.list(place));
    let problem = Problem {
        rig: Rig::from_numbers(&input.numbers(4)),
        damping: input.number(5),
        points: &points,
        view1: &view1,
        view2: &view2,
        inverse_deviations: &deviations,
    };
    match whole_step(&problem, input.0[6].len()) {
        Ok(step) => {
            let Input(mut lists) = Input::of(&[&step.point_steps, &step.numbers()]);
            lists.push(vec![step.weak_point_count as u64]);
            Answer::Result(lists)
        }
        Err(refusal) => Answer::Refused(Refusal {
            number: refusal.number as u8,
            view: refusal.view as u8,
            index: refusal.index as u64,
        }),
    }
}
