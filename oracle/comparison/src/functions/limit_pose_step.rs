//! `limit_pose_step` of optimizer.rs at 0.5.

use oracle::optimizer;
use pixel_step::slices;

use crate::function::{Answer, Function, lent, room};
use crate::input::Input;
use crate::inputs;

pub const FUNCTION: Function = Function {
    name: "limit_pose_step",
    arguments: &[lent("x", 5), room(5)],
    rows: &[],
    walk: None,
    generate: |source| Input::of(&[&inputs::pose_step(source)]),
    port: |lent, rooms| slices::limit_pose_step(lent.numbers(0), rooms.numbers[0]),
    oracle: |input| Answer::numbers(&optimizer::limit_pose_step(&input.numbers(0), 0.5)),
    plain: None,
};
