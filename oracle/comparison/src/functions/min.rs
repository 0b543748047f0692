//! The smaller. The original calls `f64::min`; of unlike zeros the rule gives −0.

use crate::function::{Answer, Function, give, number, returned};
use crate::input::Input;
use crate::inputs;

pub const FUNCTION: Function = Function {
    name: "min",
    arguments: &[number("x"), number("y"), returned()],
    rows: &[],
    walk: None,
    generate: |source| {
        let [x, y] = inputs::pair(source);
        Input::of(&[&[x], &[y]])
    },
    port: |lent, rooms| give(rooms, pixel_step::min(lent.number(0), lent.number(1))),
    oracle: |input| {
        let (x, y) = (input.number(0), input.number(1));
        let unlike = x == 0.0 && y == 0.0 && x.to_bits() != y.to_bits();
        Answer::numbers(&[if unlike { -0.0 } else { x.min(y) }])
    },
    plain: Some(|input| Answer::numbers(&[input.number(0).min(input.number(1))])),
};
