//! The root. The original calls `f64::sqrt`.

use crate::function::{Answer, Function, give, number, returned};
use crate::input::Input;
use crate::inputs;

pub const FUNCTION: Function = Function {
    name: "sqrt",
    arguments: &[number("x"), returned()],
    rows: &[],
    walk: Some(inputs::EVERY_EXPONENT),
    generate: |source| {
        let x = match source.below(3) {
            0 => inputs::near_square(source),
            1 => inputs::number(source).abs(),
            _ => inputs::number(source),
        };
        Input::of(&[&[x]])
    },
    port: |lent, rooms| give(rooms, pixel_step::sqrt(lent.number(0))),
    oracle: |input| Answer::numbers(&[input.number(0).sqrt()]),
    plain: None,
};
