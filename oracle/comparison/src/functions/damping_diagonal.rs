//! `PointBlockFactor::damping_diagonal` of point_block.rs.

use oracle::{point_block, zeros};
use pixel_step::slices;

use crate::function::{Answer, Function, lent, room};
use crate::input::Input;
use crate::inputs;

pub const FUNCTION: Function = Function {
    name: "damping_diagonal",
    arguments: &[lent("matrix", 9), room(3)],
    rows: &[10],
    walk: None,
    generate: |source| Input::of(&[&inputs::matrix(source)]),
    port: |lent, rooms| slices::damping_diagonal(lent.numbers(0), rooms.numbers[0]),
    oracle: |input| Answer::or_row(zeros::damping_diagonal(&input.numbers(0)), 10),
    plain: Some(|input| Answer::or_row(point_block::damping_diagonal(&input.numbers(0)), 10)),
};
