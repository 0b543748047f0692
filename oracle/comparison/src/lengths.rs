//! Inputs with lengths that do not fit, from one that has the right ones.

use crate::function::Function;
use crate::input::{Input, fill};

/// More than any call's room has.
const HUGE: usize = 10_000;

/// Each argument empty, one short and one long, each pair one long and one
/// short, so that the total is right, and each room huge.
pub fn wrong(function: &Function, input: &Input) -> Vec<Input> {
    let places: Vec<_> = (0..function.arguments.len())
        .filter(|&place| function.arguments[place].has_one_length())
        .collect();
    let with = |changes: &[(usize, usize)]| {
        let mut input = input.clone();
        for &(place, length) in changes {
            let filler = filler(function, place);
            input.0[place].resize(length, filler);
        }
        input
    };
    let length = |place: usize| input.0[place].len();
    let mut inputs = Vec::new();
    for &place in &places {
        inputs.push(with(&[(place, 0)]));
        inputs.push(with(&[(place, length(place) - 1)]));
        inputs.push(with(&[(place, length(place) + 1)]));
        for &other in places.iter().filter(|&&other| other != place) {
            inputs.push(with(&[
                (place, length(place) + 1),
                (other, length(other) - 1),
            ]));
        }
        if function.arguments[place].is_written() {
            inputs.push(with(&[(place, HUGE)]));
        }
    }
    inputs
}

/// What a longer argument ends in.
fn filler(function: &Function, place: usize) -> u64 {
    let argument = &function.arguments[place];
    match argument.kind.width() {
        _ if argument.is_written() => fill(argument.kind),
        8 => 1.0_f64.to_bits(),
        _ => 1,
    }
}
