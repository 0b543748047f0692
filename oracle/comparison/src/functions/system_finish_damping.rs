//! `ReducedSystem::finish_damping` of schur.rs behind row 3.

use oracle::point_block;
use pixel_step::slices;

use crate::function::{Answer, Function, count_state, number, state};
use crate::input::Input;
use crate::inputs;
use crate::systems;

pub const FUNCTION: Function = Function {
    name: "system_finish_damping",
    arguments: &[
        state("system", 45),
        count_state("counts", 3),
        number("damping"),
    ],
    rows: &[3],
    walk: None,
    generate: |source| {
        let (numbers, counts) = inputs::system(source);
        Input::of(&[&numbers, &[inputs::damping(source)]]).with_counts(&counts)
    },
    port: |lent, rooms| {
        slices::system_finish_damping(rooms.numbers[0], rooms.counts[0], lent.number(2))
    },
    oracle: |input| {
        let ([_, blocks, _], damping) = (input.counts(1), input.number(2));
        if !point_block::good_damping(damping) {
            return Answer::row(3);
        }
        systems::answer(&systems::given(input).finish_damping(damping), blocks)
    },
    plain: None,
};
