//! `PointBlockFactor::solve` of point_block.rs, on any six numbers.

use oracle::point_block;
use pixel_step::slices;

use crate::function::{Answer, Function, lent, room};
use crate::input::Input;
use crate::inputs;

pub const FUNCTION: Function = Function {
    name: "factor_solve",
    arguments: &[lent("inverse", 6), lent("rhs", 3), room(3)],
    rows: &[],
    walk: None,
    generate: |source| {
        let (inverse, _) = inputs::inverse(source);
        Input::of(&[&inverse, &source.numbers::<3>()])
    },
    port: |lent, rooms| slices::factor_solve(lent.numbers(0), lent.numbers(1), rooms.numbers[0]),
    oracle: |input| Answer::numbers(&point_block::solve(&input.numbers(0), &input.numbers(1))),
    plain: None,
};
