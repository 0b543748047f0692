//! What this compiler makes of the points that Rust leaves open, at run time:
//! where a sum begins, which zero a maximum gives, and what the operations of
//! the original that could show it do give. Last, a digest of results over many
//! seeded inputs, to be the same at every optimization level.

use std::hint::black_box;

use oracle::flat::bits;
use oracle::generate::{self, Source};
use oracle::optimizer::{Outcome, limit_pose_step, step};
use oracle::schur::{Block, System, linearize_point, point_step_with_damping_norm};
use oracle::{point_block, projection, schur, solver, zeros};

const DIGEST_CASES: usize = 5000;

fn main() {
    sums();
    extremes();
    operations();
    digest();
}

/// Where `.sum()` begins.
fn sums() {
    let empty: [f64; 0] = black_box([]);
    println!(
        "sum of nothing, by reference: {:?}",
        empty.iter().sum::<f64>()
    );
    println!(
        "sum of nothing, by value: {:?}",
        empty.into_iter().sum::<f64>()
    );
    let none = (0..black_box(0)).map(f64::from).sum::<f64>();
    println!("sum of nothing, mapped: {none:?}");
}

/// `max` and `min` of unlike zeros and of NaN, as methods and in folds.
fn extremes() {
    let signalling = f64::from_bits((0x7FF << 52) + 1);
    let pairs = [
        (0.0, -0.0),
        (-0.0, 0.0),
        (f64::NAN, 1.0),
        (1.0, f64::NAN),
        (f64::NAN, -0.0),
        (-0.0, f64::NAN),
        (f64::NAN, f64::NAN),
        (signalling, 1.0),
        (1.0, signalling),
    ];
    for (left, right) in pairs {
        let (a, b): (f64, f64) = (black_box(left), black_box(right));
        let (max, min) = (black_box(a.max(b)), black_box(a.min(b)));
        println!(
            "{} and {}: max {max:?}, min {min:?}",
            name(left),
            name(right)
        );
    }
    let from_plus = black_box([-0.0]).into_iter().fold(0.0, f64::max);
    println!("fold of [-0.0] from 0.0 by max = {from_plus:?}");
}

/// The value, or which kind of NaN it is.
fn name(value: f64) -> String {
    match (value.is_nan(), value.to_bits() >> 51 & 1) {
        (true, 0) => String::from("signalling NaN"),
        (true, _) => String::from("quiet NaN"),
        (false, _) => format!("{value:?}"),
    }
}

/// The five operations of the original that can show the sign, beside the rule.
fn operations() {
    let least = f64::from_bits(4);
    let matrix = black_box([least, 0.0, 0.0, 0.0, -0.0, 0.0, 0.0, 0.0, least]);
    let second = |diagonal: Option<[f64; 3]>| diagonal.map_or(f64::NAN, |values| values[1]);
    report(
        "point_block.rs 108",
        second(point_block::damping_diagonal(&matrix)),
        second(zeros::damping_diagonal(&matrix)),
    );
    let (gradient, diagonal) = black_box(([0.0, 1.0, 0.0], [least, -0.0, least]));
    report(
        "schur.rs 426",
        schur::scaled_gradient_inf_norm(&gradient, &diagonal),
        zeros::scaled_gradient_inf_norm(&gradient, &diagonal),
    );
    let (system, block) = black_box(minus_zeros());
    let (plain, ruled) = (system.add(&block, 0.0), zeros::add(&system, &block, 0.0));
    report(
        "schur.rs 109",
        plain.scaled_point_gradient_inf_norm,
        ruled.scaled_point_gradient_inf_norm,
    );
    report(
        "schur.rs 123",
        plain.minimum_point_rcond,
        ruled.minimum_point_rcond,
    );
    report(
        "schur.rs 159",
        system.scaled_gradient_inf_norm(),
        zeros::system_gradient_norm(&system),
    );
}

fn report(place: &str, plain: f64, ruled: f64) {
    println!("{place} on unlike zeros = {plain:?}, by the rule {ruled:?}");
}

/// A system with -0 in both running figures, and a block without gradient that
/// factors with rcond +0: its halves off the diagonal cancel in the factor, and
/// overflow in the norm.
fn minus_zeros() -> (System, Block) {
    let mut system = System::new();
    system.scaled_point_gradient_inf_norm = -0.0;
    system.minimum_point_rcond = -0.0;
    let mut block = Block::from_numbers(&[0.0; Block::NUMBERS]);
    let most = f64::MAX;
    block.point_hessian = [1.0, most, most, -most, 1.0, 0.0, -most, 0.0, 1.0];
    (system, block)
}

/// FNV-1a over the bits of numbers, with one pattern for every NaN.
struct Digest(u64);

impl Digest {
    fn numbers(&mut self, numbers: &[f64]) {
        for &number in numbers {
            for byte in bits(number).to_le_bytes() {
                self.0 = (self.0 ^ u64::from(byte)).wrapping_mul(0x0000_0100_0000_01B3);
            }
        }
    }

    fn flag(&mut self, flag: bool) {
        self.numbers(&[f64::from(u8::from(flag))]);
    }
}

/// One digest over results of every function, zeros by the rule.
fn digest() {
    let mut digest = Digest(0xCBF2_9CE4_8422_2325);
    let mut source = Source::new(2026);
    for _ in 0..DIGEST_CASES {
        small_results(&mut source, &mut digest);
        system_results(&mut source, &mut digest);
        step_results(&mut source, &mut digest);
    }
    println!("digest of {DIGEST_CASES} seeded cases = {:016X}", digest.0);
}

fn small_results(source: &mut Source, digest: &mut Digest) {
    let (camera, pixel, point) = (source.numbers(), source.numbers(), source.numbers());
    if let Some((residual, jacobian)) = projection::pixel_projection(&camera, &pixel, &point) {
        digest.numbers(&residual);
        digest.numbers(&jacobian);
    }
    let matrix = generate::matrix(source);
    if let Some(factor) = point_block::new(&matrix, generate::damping(source)) {
        digest.numbers(&factor);
        digest.numbers(&point_block::solve(&factor, &source.numbers()));
        digest.numbers(&[point_block::reciprocal_condition_number(&factor, &matrix)]);
    }
    let (a, b) = generate::equations(source);
    if let Some(solution) = solver::solve_positive_definite(&a, &b) {
        digest.numbers(&solution);
    }
    digest.numbers(&limit_pose_step(&source.numbers(), 0.5));
}

fn system_results(source: &mut Source, digest: &mut Digest) {
    let (rig, correspondence) = generate::correspondence(source);
    if let Ok(block) = linearize_point(&rig, &correspondence) {
        digest.numbers(&block.numbers());
    }
    let (system, block) = (generate::any_system(source, 9), generate::any_block(source));
    let damping = generate::damping(source);
    let system = zeros::add(&system, &block, damping).finish_damping(damping);
    digest.numbers(&system.numbers());
    digest.numbers(&[zeros::system_gradient_norm(&system)]);
    digest.flag(system.is_valid());
    let (pose_step, point_norm) = (source.numbers(), source.mixed());
    digest.numbers(&[system.predicted_reduction(&pose_step, damping, point_norm)]);
    if let Some((step, norm)) = point_step_with_damping_norm(&block, damping, &pose_step) {
        digest.numbers(&step);
        digest.numbers(&[norm]);
    }
}

fn step_results(source: &mut Source, digest: &mut Digest) {
    let n = source.below(12);
    let outcome = step(&generate::any_problem(source, n).problem());
    digest.flag(matches!(outcome, Outcome::Done(_)));
    if let Outcome::Done(step) = outcome {
        digest.numbers(&step.numbers());
        digest.numbers(&step.point_steps);
    }
}
