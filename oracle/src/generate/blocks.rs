//! Matrices, equations, blocks and systems of any numbers.

use super::faults::any_problem;
use super::rigs::damping;
use super::source::Source;
use crate::schur::{Block, Correspondence, Rig, System};

/// A 3 by 3 matrix by rows: a sum of squares, a diagonal, or any numbers.
pub fn matrix(source: &mut Source) -> [f64; 9] {
    let mut matrix = match source.below(4) {
        0 => source.numbers(),
        1 => {
            let diagonal = source.numbers::<3>();
            std::array::from_fn(|i| if i % 4 == 0 { diagonal[i / 4] } else { 0.0 })
        }
        _ => {
            let rows = 1 + source.below(4);
            gram::<3, 9>(source, rows)
        }
    };
    if source.once_in(3) {
        let factor = source.power();
        matrix = matrix.map(|value| value * factor);
    }
    if source.once_in(4) {
        source.damage_numbers(&mut matrix);
    }
    matrix
}

/// The sum of `count` outer products of moderate or small vectors.
fn gram<const C: usize, const N: usize>(source: &mut Source, count: usize) -> [f64; N] {
    let mut sum = [0.0; N];
    let whole = source.once_in(4);
    for _ in 0..count {
        let row: [f64; C] = std::array::from_fn(|_| {
            if whole {
                source.small()
            } else {
                source.moderate()
            }
        });
        for (index, entry) in sum.iter_mut().enumerate() {
            *entry += row[index / C] * row[index % C];
        }
    }
    sum
}

/// A 5 by 5 system by rows: mostly positive definite, some short of rank.
pub fn equations(source: &mut Source) -> ([f64; 25], [f64; 5]) {
    let rows = 3 + source.below(8);
    let mut a = if source.once_in(6) {
        source.numbers()
    } else {
        gram::<5, 25>(source, rows)
    };
    let mut b = source.numbers();
    if source.once_in(4) {
        let factor = source.power();
        a = a.map(|value| value * factor);
    }
    if source.once_in(4) {
        source.damage_numbers(&mut a);
    }
    if source.once_in(6) {
        source.damage_numbers(&mut b);
    }
    (a, b)
}

/// One correspondence under a rig, sound or damaged.
pub fn correspondence(source: &mut Source) -> (Rig, Correspondence) {
    let case = any_problem(source, 1);
    (case.rig, case.correspondence(0))
}

/// A block of any numbers: from the block maker, or made up, or damaged.
pub fn any_block(source: &mut Source) -> Block {
    let mut numbers: [f64; Block::NUMBERS] = source.numbers();
    if !source.once_in(4) {
        let (rig, correspondence) = correspondence(source);
        if let Ok(block) = crate::schur::linearize_point(&rig, &correspondence) {
            numbers = block.numbers();
        }
    }
    if source.once_in(2) {
        numbers[40..49].copy_from_slice(&matrix(source));
    }
    if source.once_in(3) {
        source.damage_numbers(&mut numbers);
    }
    Block::from_numbers(&numbers)
}

/// A system of any numbers, any flag, and a weak count from 0 to `most`.
pub fn any_system(source: &mut Source, most: usize) -> System {
    let mut numbers: [f64; System::NUMBERS] = source.numbers();
    if !source.once_in(4) {
        let mut system = System::new();
        let damping = damping(source);
        for _ in 0..source.below(6) {
            system = system.add(&any_block(source), damping);
        }
        numbers = system.numbers();
    }
    if source.once_in(3) {
        source.damage_numbers(&mut numbers);
    }
    System::from_parts(&numbers, source.below(most + 1), !source.once_in(4))
}
