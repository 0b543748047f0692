//! The number with a pattern.

use crate::function::{Answer, Function, give, returned, word};
use crate::input::Input;
use crate::inputs;

pub const FUNCTION: Function = Function {
    name: "from_bits",
    arguments: &[word("bits"), returned()],
    rows: &[],
    walk: Some(inputs::EVERY_EXPONENT),
    generate: |source| Input::of(&[&[inputs::number(source)]]),
    port: |lent, rooms| give(rooms, pixel_step::from_bits(lent.word(0))),
    oracle: |input| Answer::numbers(&[f64::from_bits(input.word(0))]),
    plain: None,
};
