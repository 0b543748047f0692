//! `ReducedSystem::predicted_reduction` of schur.rs behind row 3.

use oracle::point_block;
use pixel_step::slices;

use crate::function::{Answer, Function, counts, lent, number, room};
use crate::input::Input;
use crate::inputs;
use crate::systems;

pub const FUNCTION: Function = Function {
    name: "system_predicted_reduction",
    arguments: &[
        lent("system", 45),
        counts("counts", 3),
        lent("step", 5),
        number("damping"),
        number("point_damping_norm"),
        room(1),
    ],
    rows: &[3],
    walk: None,
    generate: |source| {
        let (numbers, counts) = inputs::system(source);
        let (step, damping) = (source.numbers::<5>(), inputs::damping(source));
        let norm = inputs::number(source);
        Input::of(&[&numbers, &step, &[damping], &[norm]]).with_counts(&counts)
    },
    port: |lent, rooms| {
        let (system, counts, step) = (lent.numbers(0), lent.counts(1), lent.numbers(2));
        let (damping, norm) = (lent.number(3), lent.number(4));
        let out = &mut *rooms.numbers[0];
        slices::system_predicted_reduction(system, counts, step, damping, norm, out)
    },
    oracle: |input| {
        let (damping, norm) = (input.number(3), input.number(4));
        if !point_block::good_damping(damping) {
            return Answer::row(3);
        }
        let system = systems::given(input);
        Answer::numbers(&[system.predicted_reduction(&input.numbers(2), damping, norm)])
    },
    plain: None,
};
