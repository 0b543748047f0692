//! The factor with rcond: row 3, then `PointBlockFactor::new` and its
//! `reciprocal_condition_number` on the undamped matrix.

use oracle::point_block;
use pixel_step::slices;

use crate::function::{Answer, Function, lent, number, room};
use crate::input::Input;
use crate::inputs;

pub const FUNCTION: Function = Function {
    name: "factor_new",
    arguments: &[lent("matrix", 9), number("damping"), room(7)],
    rows: &[3, 10],
    walk: None,
    generate: |source| Input::of(&[&inputs::matrix(source), &[inputs::damping(source)]]),
    port: |lent, rooms| slices::factor_new(lent.numbers(0), lent.number(1), rooms.numbers[0]),
    oracle: |input| {
        let (matrix, damping) = (input.numbers(0), input.number(1));
        if !point_block::good_damping(damping) {
            return Answer::row(3);
        }
        point_block::new(&matrix, damping).map_or(Answer::row(10), |inverse| {
            let rcond = point_block::reciprocal_condition_number(&inverse, &matrix);
            Answer::numbers(&[&inverse[..], &[rcond]].concat())
        })
    },
    plain: None,
};
