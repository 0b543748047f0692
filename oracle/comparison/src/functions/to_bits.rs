//! The pattern of a number. The port writes one pattern for every NaN, and that
//! one is asked for.

use crate::function::{Answer, Function, give, number, returned_word};
use crate::input::Input;
use crate::inputs;

pub const FUNCTION: Function = Function {
    name: "to_bits",
    arguments: &[number("x"), returned_word()],
    rows: &[],
    walk: Some(inputs::EVERY_EXPONENT),
    generate: |source| Input::of(&[&[inputs::number(source)]]),
    port: |lent, rooms| {
        let bits = pixel_step::to_bits(lent.number(0));
        give(rooms, f64::from_bits(bits))
    },
    oracle: |input| Answer::word(oracle::flat::bits(input.number(0))),
    plain: None,
};
