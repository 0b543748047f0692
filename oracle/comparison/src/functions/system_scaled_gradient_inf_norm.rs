//! `ReducedSystem::scaled_gradient_inf_norm` of schur.rs.

use oracle::zeros;
use pixel_step::slices;

use crate::function::{Answer, Function, room};
use crate::systems;

pub const FUNCTION: Function = Function {
    name: "system_scaled_gradient_inf_norm",
    arguments: &systems::asked(room(1)),
    rows: &[],
    walk: None,
    generate: systems::generated,
    port: |lent, rooms| {
        let (system, counts) = (lent.numbers(0), lent.counts(1));
        slices::system_scaled_gradient_inf_norm(system, counts, rooms.numbers[0])
    },
    oracle: |input| Answer::numbers(&[zeros::system_gradient_norm(&systems::given(input))]),
    plain: Some(|input| Answer::numbers(&[systems::given(input).scaled_gradient_inf_norm()])),
};
