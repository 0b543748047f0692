//! `PointBlockFactor::reciprocal_condition_number` of point_block.rs, on any
//! six numbers and any matrix.

use oracle::point_block;
use pixel_step::slices;

use crate::function::{Answer, Function, lent, room};
use crate::input::Input;
use crate::inputs;

pub const FUNCTION: Function = Function {
    name: "reciprocal_condition_number",
    arguments: &[lent("inverse", 6), lent("matrix", 9), room(1)],
    rows: &[],
    walk: None,
    generate: |source| {
        let (inverse, matrix) = inputs::inverse(source);
        Input::of(&[&inverse, &matrix])
    },
    port: |lent, rooms| {
        slices::reciprocal_condition_number(lent.numbers(0), lent.numbers(1), rooms.numbers[0])
    },
    oracle: |input| {
        let (inverse, matrix) = (input.numbers(0), input.numbers(1));
        Answer::numbers(&[point_block::reciprocal_condition_number(&inverse, &matrix)])
    },
    plain: None,
};
