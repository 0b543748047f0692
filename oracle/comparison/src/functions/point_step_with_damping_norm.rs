//! The point step: row 3, then `point_step_with_damping_norm` of schur.rs.

use oracle::point_block;
use oracle::schur::{self, Block};
use pixel_step::slices;

use crate::function::{Answer, Function, lent, number, room};
use crate::input::Input;
use crate::inputs;

pub const FUNCTION: Function = Function {
    name: "point_step_with_damping_norm",
    arguments: &[
        lent("block", 59),
        number("damping"),
        lent("pose_step", 5),
        room(4),
    ],
    rows: &[3, 10],
    walk: None,
    generate: |source| {
        let (block, damping) = (inputs::block(source), inputs::damping(source));
        Input::of(&[&block, &[damping], &source.numbers::<5>()])
    },
    port: |lent, rooms| {
        let (block, damping) = (lent.numbers(0), lent.number(1));
        let pose_step = lent.numbers(2);
        slices::point_step_with_damping_norm(block, damping, pose_step, rooms.numbers[0])
    },
    oracle: |input| {
        let (block, damping) = (Block::from_numbers(&input.numbers(0)), input.number(1));
        if !point_block::good_damping(damping) {
            return Answer::row(3);
        }
        schur::point_step_with_damping_norm(&block, damping, &input.numbers(2))
            .map_or(Answer::row(10), |([x, y, z], norm)| {
                Answer::numbers(&[x, y, z, norm])
            })
    },
    plain: None,
};
