//! The block maker: row 4, then `linearize_point` of schur.rs with plain
//! squares, whose missing projections are row 9 with view 1 or 2.

use oracle::schur::{self, Correspondence, Rig};
use pixel_step::{Refusal, slices};

use crate::function::{Answer, Function, lent, room};
use crate::input::Input;
use crate::inputs;

pub const FUNCTION: Function = Function {
    name: "linearize_point",
    arguments: &[lent("rig", 29), lent("correspondence", 8), room(59)],
    rows: &[4, 9],
    walk: None,
    generate: |source| {
        let (rig, correspondence) = inputs::correspondence(source);
        Input::of(&[&rig.numbers(), &correspondence.numbers()])
    },
    port: |lent, rooms| {
        slices::linearize_point(lent.numbers(0), lent.numbers(1), rooms.numbers[0])
    },
    oracle: |input| {
        let rig = Rig::from_numbers(&input.numbers(0));
        let correspondence = Correspondence::from_numbers(&input.numbers(1));
        let deviation = correspondence.inverse_deviation;
        if !deviation.is_finite() || deviation <= 0.0 {
            return Answer::row(4);
        }
        match schur::linearize_point(&rig, &correspondence) {
            Ok(block) => Answer::numbers(&block.numbers()),
            Err(view) => Answer::Refused(Refusal {
                number: 9,
                view: view as u8,
                index: 0,
            }),
        }
    },
    plain: None,
};
