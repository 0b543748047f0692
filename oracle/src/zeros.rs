//! Where the maximum or minimum of unlike zeros shows in a result.
//!
//! Rust leaves the sign open and docs/SPECIFICATION.md, "Numbers", fixes it: `max`
//! gives +0, `min` gives -0. Five operations of the original can show it, all only
//! on numbers that no new system and no block maker produces (a diagonal entry, a
//! gradient norm or a smallest rcond of -0):
//!
//! - point_block.rs 108, `matrix[coordinate][coordinate].max(floor)`, where the floor underflows;
//! - schur.rs 426, `curvature.max(floor)`, where the floor underflows;
//! - schur.rs 109 and 159, the running gradient norm;
//! - schur.rs 123, the running smallest rcond.
//!
//! The functions here give what the port's rule asks. They run the original on
//! inputs in which the -0 in question is +0, which the rule makes equal, and so
//! differ from the plain call in the sign of those zeros and what follows from
//! it, and nowhere else. A comparison uses these as its right-hand side, and
//! counts the cases in which they differ from the plain call.

use crate::schur::{Block, System};
use crate::{point_block, schur};

/// +0 for either zero; everything else as it is.
fn plus_zero(value: f64) -> f64 {
    if value == 0.0 { 0.0 } else { value }
}

fn is_minus_zero(value: f64) -> bool {
    value == 0.0 && value.is_sign_negative()
}

/// A 3 by 3 matrix without -0 on its diagonal.
fn plus_diagonal(matrix: &[f64; 9]) -> [f64; 9] {
    std::array::from_fn(|index| match index {
        0 | 4 | 8 => plus_zero(matrix[index]),
        _ => matrix[index],
    })
}

/// `damping_diagonal` under the rule.
pub fn damping_diagonal(matrix: &[f64; 9]) -> Option<[f64; 3]> {
    point_block::damping_diagonal(&plus_diagonal(matrix))
}

/// `damped_matrix` under the rule. Where the diagonal holds -0 and the floor is
/// +0, the entry is -0 plus damping times the rule's +0.
pub fn damped_matrix(matrix: &[f64; 9], damping: f64) -> Option<[f64; 9]> {
    let mut damped = point_block::damped_matrix(matrix, damping)?;
    let diagonal = damping_diagonal(matrix)?;
    for (coordinate, &added) in diagonal.iter().enumerate() {
        let entry = matrix[4 * coordinate];
        if is_minus_zero(entry) && added == 0.0 {
            damped[4 * coordinate] = entry + damping * added;
        }
    }
    Some(damped)
}

/// The free `scaled_gradient_inf_norm` under the rule.
pub fn scaled_gradient_inf_norm<const N: usize>(gradient: &[f64; N], diagonal: &[f64; N]) -> f64 {
    schur::scaled_gradient_inf_norm(gradient, &diagonal.map(plus_zero))
}

/// `ReducedSystem::add` under the rule.
#[must_use]
pub fn add(system: &System, block: &Block, damping: f64) -> System {
    let mut result = system.add(block, damping);
    let plus_system = System {
        scaled_point_gradient_inf_norm: plus_zero(system.scaled_point_gradient_inf_norm),
        ..*system
    };
    let plus_block = Block {
        point_hessian: plus_diagonal(&block.point_hessian),
        ..*block
    };
    result.scaled_point_gradient_inf_norm = plus_system
        .add(&plus_block, damping)
        .scaled_point_gradient_inf_norm;
    // rcond is never below zero, so -0 stays the smallest once it is there.
    let factors = point_block::new(&block.point_hessian, damping).is_some();
    if is_minus_zero(system.minimum_point_rcond) && damping == 0.0 && factors {
        result.minimum_point_rcond = -0.0;
    }
    result
}

/// `ReducedSystem::scaled_gradient_inf_norm` under the rule.
pub fn system_gradient_norm(system: &System) -> f64 {
    System {
        scaled_point_gradient_inf_norm: plus_zero(system.scaled_point_gradient_inf_norm),
        pose_diagonal: system.pose_diagonal.map(plus_zero),
        ..*system
    }
    .scaled_gradient_inf_norm()
}
