//! `solve_positive_definite::<5>` of solver.rs.

use oracle::solver;
use pixel_step::slices;

use crate::function::{Answer, Function, lent, room};
use crate::input::Input;
use crate::inputs;

pub const FUNCTION: Function = Function {
    name: "solve_positive_definite",
    arguments: &[lent("a", 25), lent("b", 5), room(5)],
    rows: &[11],
    walk: None,
    generate: |source| {
        let (a, b) = inputs::equations(source);
        Input::of(&[&a, &b])
    },
    port: |lent, rooms| slices::solve_positive_definite(lent.numbers(0), lent.numbers(1), rooms.numbers[0]),
    oracle: |input| {
        let solution = solver::solve_positive_definite(&input.numbers(0), &input.numbers(1));
        Answer::or_row(solution, 11)
    },
    plain: None,
};
