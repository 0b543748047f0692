//! The absolute value. The original calls `f64::abs`.

use crate::function::{Answer, Function, give, number, returned};
use crate::input::Input;
use crate::inputs;

pub const FUNCTION: Function = Function {
    name: "abs",
    arguments: &[number("x"), returned()],
    rows: &[],
    walk: Some(inputs::EVERY_EXPONENT),
    generate: |source| Input::of(&[&[inputs::number(source)]]),
    port: |lent, rooms| give(rooms, pixel_step::abs(lent.number(0))),
    oracle: |input| Answer::numbers(&[input.number(0).abs()]),
    plain: None,
};
