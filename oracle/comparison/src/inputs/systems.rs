//! Correspondences under a rig, blocks, and systems with their counts.

use oracle::generate::{self, Source};
use oracle::schur::{Block, Correspondence, Rig, System};

use super::{LIMIT, matrix, nudged, zero};

/// The most blocks that a system takes in.
pub const MOST_BLOCKS: u16 = 65_535;

/// A rig and a correspondence of any kind: the block maker refuses some by each row.
pub fn correspondence(source: &mut Source) -> (Rig, Correspondence) {
    let (mut rig, mut correspondence) = match source.below(8) {
        0..=3 => generate::correspondence(source),
        4 => unseen(source),
        5 => (
            Rig::from_numbers(&source.numbers()),
            Correspondence::from_numbers(&source.numbers()),
        ),
        6 => whole(source),
        _ => scaled(source),
    };
    if source.once_in(6) {
        correspondence.inverse_deviation = bad_deviation(source);
    }
    if source.once_in(12) {
        rig.baseline = source.mixed();
    }
    (rig, correspondence)
}

/// An inverse standard deviation that row 4 refuses, or a neighbor of one.
fn bad_deviation(source: &mut Source) -> f64 {
    match source.below(6) {
        0 => zero(source),
        1 => -source.moderate().abs(),
        2 => f64::NAN,
        3 => [f64::INFINITY, f64::NEG_INFINITY][source.below(2)],
        4 => -source.power(),
        _ => f64::from_bits(1).copysign(source.small()),
    }
}

/// A sound correspondence that one of the views hardly sees, or not at all.
fn unseen(source: &mut Source) -> (Rig, Correspondence) {
    let case = generate::problem(source, 1);
    let (mut rig, mut correspondence) = (case.rig, case.correspondence(0));
    let depth = match source.below(4) {
        0 => zero(source),
        1 => -correspondence.point[2],
        2 => {
            let wide = correspondence.point[0]
                .abs()
                .max(correspondence.point[1].abs());
            nudged(source, LIMIT * wide)
        }
        _ => f64::NAN,
    };
    if source.once_in(2) {
        correspondence.point[2] = depth;
    } else {
        // The second camera stands so that the depth is its own.
        let rotated = [6, 7, 8].map(|index| rig.rotation[index]);
        let turned: f64 = (0..3)
            .map(|index| rotated[index] * correspondence.point[index])
            .sum();
        rig.translation[2] = depth - turned;
    }
    (rig, correspondence)
}

/// Small whole numbers, so that sums cancel.
fn whole(source: &mut Source) -> (Rig, Correspondence) {
    let case = generate::faulty(source, 1, generate::Fault::Whole);
    (case.rig, case.correspondence(0))
}

/// A sound correspondence, with parts scaled up to overflow and underflow.
fn scaled(source: &mut Source) -> (Rig, Correspondence) {
    let case = generate::faulty(source, 1, generate::Fault::Scaled);
    let (rig, mut correspondence) = (case.rig, case.correspondence(0));
    if source.once_in(2) {
        let factor = source.power();
        correspondence.view1 = correspondence.view1.map(|value| value * factor);
    }
    (rig, correspondence)
}

/// A block of any kind.
pub fn block(source: &mut Source) -> [f64; Block::NUMBERS] {
    let mut block = generate::any_block(source);
    if source.once_in(3) {
        block.point_hessian = matrix(source);
    }
    if source.once_in(4) {
        let [a, b, c] = lost_diagonal(source);
        block.point_hessian = [a, 0.0, 0.0, 0.0, b, 0.0, 0.0, 0.0, c];
        block.point_gradient = source.moderates();
    }
    block.numbers()
}

/// A diagonal of zeros of both signs, beside an entry so small that 64ε of it
/// is lost.
fn lost_diagonal<const N: usize>(source: &mut Source) -> [f64; N] {
    let mut diagonal = [0.0; N].map(|_| zero(source));
    diagonal[source.below(N)] = f64::from_bits(1 + (source.next_bits() >> 20));
    diagonal
}

/// A system of any kind, and its counts with the flag.
pub fn system(source: &mut Source) -> ([f64; System::NUMBERS], [u16; 3]) {
    let mut system = generate::any_system(source, 0);
    if source.once_in(4) {
        system.pose_diagonal = lost_diagonal(source);
        system.full_pose_gradient = source.moderates();
    }
    if source.once_in(6) {
        system.minimum_point_rcond = zero(source);
    }
    if source.once_in(6) {
        system.scaled_point_gradient_inf_norm = zero(source);
    }
    (system.numbers(), counts(source))
}

/// Weak count, block count, flag: sound, too many weak ones, full, or any.
fn counts(source: &mut Source) -> [u16; 3] {
    let any = |source: &mut Source| source.next_bits() as u16;
    let (weak, blocks) = match source.below(16) {
        0..=6 => {
            let blocks = source.below(13) as u16;
            (source.below(usize::from(blocks) + 1) as u16, blocks)
        }
        7 | 8 => {
            let blocks = MOST_BLOCKS - source.below(4) as u16;
            (blocks - source.below(4) as u16, blocks)
        }
        9..=11 => {
            let blocks = source.below(usize::from(MOST_BLOCKS)) as u16;
            (blocks + 1, blocks)
        }
        12..=14 => (any(source), MOST_BLOCKS),
        _ => (any(source), any(source)),
    };
    let flag = match source.below(4) {
        0 => 0,
        1 => any(source),
        _ => 1,
    };
    [weak, blocks, flag]
}
