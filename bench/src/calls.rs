//! The calls that are timed: each side over a whole plate, and before that a
//! check that both sides give the same bits. Every call is one of a function
//! that is not inlined. Inputs and results are out of the optimizer's sight, but
//! not by a copy at each call, which would make each call wait for the last.

use std::hint::black_box;

use oracle::flat::all_same;
use oracle::optimizer::timed::{OwnBlock, OwnFactor, OwnProjection, OwnSystem};
use pixel_step::slices;

use crate::clock::{Budget, Pair, pair};
use crate::problem::Problem;

/// One call, timed on both sides.
pub struct Call {
    pub name: &'static str,
    /// Whether the damping changes its work.
    pub damped: bool,
    pub time: fn(&Problem<'_>, Budget) -> Pair,
}

pub const CALLS: [Call; 6] = [
    call("root", false, root),
    call("projection", false, project),
    call("factor with rcond", true, factor),
    call("block maker", false, make_block),
    call("`add`", true, add),
    call("whole step", true, step),
];

const fn call(name: &'static str, damped: bool, time: fn(&Problem<'_>, Budget) -> Pair) -> Call {
    Call { name, damped, time }
}

#[inline(never)]
fn machine_root(x: f64) -> f64 {
    x.sqrt()
}

fn root(problem: &Problem<'_>, budget: Budget) -> Pair {
    let values: Vec<f64> = (0..problem.count()).map(|i| problem.curvature(i)).collect();
    for &x in &values {
        same(&[machine_root(x)], &[pixel_step::sqrt(x)]);
    }
    let mut roots = values.clone();
    let rust = || roots_of(&values, &mut roots, machine_root);
    let mut roots = values.clone();
    let port = || roots_of(&values, &mut roots, pixel_step::sqrt);
    pair(budget, values.len(), rust, port)
}

fn roots_of(values: &[f64], roots: &mut [f64], root: impl Fn(f64) -> f64) {
    for (x, place) in black_box(values).iter().zip(black_box(roots)) {
        *place = root(*x);
    }
}

fn project(problem: &Problem<'_>, budget: Budget) -> Pair {
    let camera = &problem.case.rig.cameras[0];
    let rust = |i| problem.prepared.project(i);
    let port = |i, out: &mut [f64; 8]| {
        slices::pixel_projection(camera, problem.view1(i), problem.point(i), out)
    };
    let flat = |projection: Option<OwnProjection>| projection.map(|p| p.flat());
    over(problem, budget, rust, port, flat)
}

fn factor(problem: &Problem<'_>, budget: Budget) -> Pair {
    let damping = problem.damping();
    let rust = |i: usize| OwnFactor::new(&problem.own_matrices[i], damping);
    let port =
        |i: usize, out: &mut [f64; 7]| slices::factor_new(&problem.matrices[i], damping, out);
    over(problem, budget, rust, port, |factor| {
        factor.map(|f| f.flat())
    })
}

fn make_block(problem: &Problem<'_>, budget: Budget) -> Pair {
    let rust = |i| problem.prepared.block(i);
    let port = |i: usize, out: &mut [f64; 59]| {
        slices::linearize_point(&problem.rig, &problem.correspondences[i], out)
    };
    let flat = |block: Option<OwnBlock>| block.map(|b| b.flat().numbers());
    over(problem, budget, rust, port, flat)
}

/// Compares, then times, a call for each point; the port writes to an array.
fn over<R, const N: usize>(
    problem: &Problem<'_>,
    budget: Budget,
    rust: impl Fn(usize) -> R,
    port: impl Fn(usize, &mut [f64; N]) -> u64,
    flat: impl Fn(R) -> Option<[f64; N]>,
) -> Pair {
    let (n, mut out) = (problem.count(), [0.0; N]);
    for i in 0..n {
        assert_eq!(port(i, &mut out), 0);
        same(&flat(rust(i)).expect("not refused"), &out);
    }
    let rust = || {
        for i in 0..black_box(n) {
            let result = rust(i);
            black_box(&result);
        }
    };
    let port = || {
        for i in 0..black_box(n) {
            port(i, &mut out);
            black_box(&out);
        }
    };
    pair(budget, n, rust, port)
}

fn add(problem: &Problem<'_>, budget: Budget) -> Pair {
    let damping = problem.damping();
    let (mut system, mut counts) = ([0.0; 45], [0; 3]);
    add_all(problem, &mut system, &mut counts);
    let own = problem.own_system().flat();
    same(&own.numbers(), &system);
    assert_eq!(own.weak_point_count, counts[0].into());
    assert_eq!(
        (problem.count(), own.valid),
        (counts[1].into(), counts[2] == 1)
    );
    let rust = || {
        let mut system = OwnSystem::default();
        for block in black_box(&problem.own_blocks) {
            system.add(block, damping);
        }
        black_box(&system);
    };
    let port = || {
        add_all(black_box(problem), &mut system, &mut counts);
        black_box((&system, &counts));
    };
    pair(budget, problem.count(), rust, port)
}

fn add_all(problem: &Problem<'_>, system: &mut [f64; 45], counts: &mut [u16; 3]) {
    slices::system_new(system, counts);
    for block in &problem.blocks {
        slices::system_add(system, counts, block, problem.damping());
    }
}

fn step(problem: &Problem<'_>, budget: Budget) -> Pair {
    let mut room = vec![0.0; 3 * problem.count()];
    let mut steps = room.clone();
    let own = rust_step(problem, &mut steps).expect("a step");
    let (numbers, weak) = port_step(problem, &mut room).expect("a step");
    same(&steps, &room);
    same(&own.numbers(), &numbers);
    assert_eq!(own.weak_point_count, weak.into());
    let rust = || {
        let result = rust_step(black_box(problem), &mut steps);
        black_box(&result);
    };
    let port = || {
        let result = port_step(black_box(problem), &mut room);
        black_box(&result);
    };
    pair(budget, problem.count(), rust, port)
}

#[inline(never)]
pub fn rust_step(problem: &Problem<'_>, room: &mut [f64]) -> Option<oracle::optimizer::Step> {
    problem.prepared.step(room)
}

#[inline(never)]
pub fn port_step(problem: &Problem<'_>, room: &mut [f64]) -> Option<([f64; 12], u16)> {
    let case = problem.case;
    let (mut out, mut weak) = ([0.0; 12], [0]);
    let code = slices::step(
        &case.points,
        &case.view1,
        &case.view2,
        &case.inverse_deviations,
        &problem.rig,
        case.damping,
        room,
        &mut out,
        &mut weak,
    );
    (code == 0).then_some((out, weak[0]))
}

/// Both sides have the same bits, any NaN for any other.
fn same(rust: &[f64], port: &[f64]) {
    assert!(all_same(rust, port), "Rust {rust:?}, port {port:?}");
}
