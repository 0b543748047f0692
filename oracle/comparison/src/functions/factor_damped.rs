//! `PointBlockFactor::factor_damped` of point_block.rs.

use oracle::point_block;
use pixel_step::slices;

use crate::function::{Answer, Function, lent, room};
use crate::input::Input;
use crate::inputs;

pub const FUNCTION: Function = Function {
    name: "factor_damped",
    arguments: &[lent("matrix", 9), room(6)],
    rows: &[10],
    walk: None,
    generate: |source| Input::of(&[&inputs::matrix(source)]),
    port: |lent, rooms| slices::factor_damped(lent.numbers(0), rooms.numbers[0]),
    oracle: |input| Answer::or_row(point_block::factor_damped(&input.numbers(0)), 10),
    plain: None,
};
