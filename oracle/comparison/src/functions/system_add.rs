//! `ReducedSystem::add` of schur.rs behind rows 3, 12 and 13, with a count of
//! the blocks.

use oracle::point_block;
use oracle::schur::{Block, System};
use oracle::zeros;
use pixel_step::slices;

use crate::function::{Answer, Function, count_state, lent, number, state};
use crate::input::Input;
use crate::inputs::{self, MOST_BLOCKS};
use crate::systems;

pub const FUNCTION: Function = Function {
    name: "system_add",
    arguments: &[
        state("system", 45),
        count_state("counts", 3),
        lent("block", 59),
        number("damping"),
    ],
    rows: &[3, 12, 13],
    walk: None,
    generate: |source| {
        let (numbers, counts) = inputs::system(source);
        let (block, damping) = (inputs::block(source), inputs::damping(source));
        Input::of(&[&numbers, &block, &[damping]]).with_counts(&counts)
    },
    port: |lent, rooms| {
        let (system, counts) = (&mut *rooms.numbers[0], &mut *rooms.counts[0]);
        slices::system_add(system, counts, lent.numbers(2), lent.number(3))
    },
    oracle: |input| added(input, zeros::add),
    plain: Some(|input| added(input, System::add)),
};

fn added(input: &Input, add: fn(&System, &Block, f64) -> System) -> Answer {
    let [weak, blocks, _] = input.counts(1);
    let (block, damping) = (Block::from_numbers(&input.numbers(2)), input.number(3));
    if !point_block::good_damping(damping) {
        return Answer::row(3);
    }
    if weak > blocks {
        return Answer::row(12);
    }
    if blocks == MOST_BLOCKS {
        return Answer::row(13);
    }
    systems::answer(&add(&systems::given(input), &block, damping), blocks + 1)
}
