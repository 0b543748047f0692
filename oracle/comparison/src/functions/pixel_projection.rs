//! `pixel_projection` of projection.rs.

use oracle::projection;
use pixel_step::slices;

use crate::function::{Answer, Function, lent, room};
use crate::input::Input;
use crate::inputs;

pub const FUNCTION: Function = Function {
    name: "pixel_projection",
    arguments: &[
        lent("camera", 5),
        lent("observation", 2),
        lent("point", 3),
        room(8),
    ],
    rows: &[9],
    walk: None,
    generate: |source| {
        let (camera, observation, point) = inputs::sight(source);
        Input::of(&[&camera, &observation, &point])
    },
    port: |lent, rooms| {
        slices::pixel_projection(lent.numbers(0), lent.numbers(1), lent.numbers(2), rooms.numbers[0])
    },
    oracle: |input| {
        projection::pixel_projection(&input.numbers(0), &input.numbers(1), &input.numbers(2))
            .map_or(Answer::row(9), |(residual, jacobian)| {
                Answer::numbers(&[&residual[..], &jacobian].concat())
            })
    },
    plain: None,
};
