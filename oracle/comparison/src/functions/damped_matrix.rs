//! `PointBlockFactor::damped_matrix` of point_block.rs behind row 3.

use oracle::{point_block, zeros};
use pixel_step::slices;

use crate::function::{Answer, Function, lent, number, room};
use crate::input::Input;
use crate::inputs;

pub const FUNCTION: Function = Function {
    name: "damped_matrix",
    arguments: &[lent("matrix", 9), number("damping"), room(9)],
    rows: &[3, 10],
    walk: None,
    generate: |source| {
        // Row 3 comes first: row 10 and the rule for zeros ask for more matrices of their own.
        let matrix = match source.below(20) {
            0 => inputs::no_scale(source),
            1 => inputs::lost_floor(source),
            _ => inputs::matrix(source),
        };
        Input::of(&[&matrix, &[inputs::damping(source)]])
    },
    port: |lent, rooms| slices::damped_matrix(lent.numbers(0), lent.number(1), rooms.numbers[0]),
    oracle: |input| damped(input, zeros::damped_matrix),
    plain: Some(|input| damped(input, point_block::damped_matrix)),
};

fn damped(input: &Input, damped_matrix: fn(&[f64; 9], f64) -> Option<[f64; 9]>) -> Answer {
    let (matrix, damping) = (input.numbers(0), input.number(1));
    if !point_block::good_damping(damping) {
        return Answer::row(3);
    }
    Answer::or_row(damped_matrix(&matrix, damping), 10)
}
