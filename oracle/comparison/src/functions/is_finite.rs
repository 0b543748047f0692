//! Neither infinite nor NaN: 1 for true, 0 for false.

use crate::function::{Answer, Function, give, number, returned_word};
use crate::input::Input;
use crate::inputs;

pub const FUNCTION: Function = Function {
    name: "is_finite",
    arguments: &[number("x"), returned_word()],
    rows: &[],
    walk: Some(inputs::EVERY_EXPONENT),
    generate: |source| Input::of(&[&[inputs::number(source)]]),
    port: |lent, rooms| {
        let finite = pixel_step::is_finite(lent.number(0));
        give(rooms, f64::from_bits(u64::from(finite)))
    },
    oracle: |input| Answer::word(u64::from(input.number(0).is_finite())),
    plain: None,
};
