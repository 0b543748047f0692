//! A system between its flat form and the oracle's, and calls that take one
//! alone.

use oracle::generate::Source;
use oracle::schur::System;

use crate::function::{Answer, Argument, counts, lent};
use crate::input::Input;
use crate::inputs;

/// The arguments of a call that is lent a system and writes its answer.
pub const fn asked(out: Argument) -> [Argument; 3] {
    [lent("system", System::NUMBERS), counts("counts", 3), out]
}

/// A system of any kind, and nothing else.
pub fn generated(source: &mut Source) -> Input {
    let (numbers, counts) = inputs::system(source);
    Input::of(&[&numbers]).with_counts(&counts)
}

/// The system that the first two arguments hold. The original does not count
/// its blocks.
pub fn given(input: &Input) -> System {
    let [weak, _, flag] = input.counts(1);
    System::from_parts(&input.numbers(0), usize::from(weak), flag != 0)
}

/// A call that leaves this system, with so many blocks.
pub fn answer(system: &System, blocks: u16) -> Answer {
    let weak = u16::try_from(system.weak_point_count).expect("at most the block count");
    let counts = [weak, blocks, u16::from(system.valid)];
    Answer::numbers_and_counts(&system.numbers(), &counts)
}
