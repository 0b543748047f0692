//! Any input ends without a panic, deviations arrive unchanged, and the rule
//! for unlike zeros changes nothing but what it names.

use oracle::flat::{all_same, same};
use oracle::generate::{self, Source};
use oracle::optimizer::{Outcome, limit_pose_step, step, whole_step};
use oracle::schur::{
    Block, Correspondence, Rig, System, linearize_point, linearize_point_with_deviation,
};
use oracle::{point_block, projection, schur, solver, zeros};

#[test]
fn the_same_seed_gives_the_same_inputs() {
    let mut first = Source::new(7);
    assert_eq!(first.next_bits(), 0x63CB_E1E4_5932_0DD7);
    let numbers = |seed| generate::any_problem(&mut Source::new(seed), 9).points;
    assert!((0..200).all(|seed| all_same(&numbers(seed), &numbers(seed))));
}

/// Each flat form has the numbers of its fields, in their order.
#[test]
fn flat_forms_go_both_ways() {
    let mut source = Source::new(4);
    for _ in 0..200 {
        let (rig, correspondence) = (source.moderates(), source.moderates());
        assert_eq!(Rig::from_numbers(&rig).numbers(), rig);
        assert_eq!(
            Correspondence::from_numbers(&correspondence).numbers(),
            correspondence
        );
        let (block, system) = (source.moderates(), source.moderates());
        assert_eq!(Block::from_numbers(&block).numbers(), block);
        assert_eq!(System::from_parts(&system, 3, true).numbers(), system);
    }
}

#[test]
fn no_input_panics() {
    let mut source = Source::new(1);
    for _ in 0..20_000 {
        let (camera, pixel, point) = (source.numbers(), source.numbers(), source.numbers());
        let _ = projection::pixel_projection(&camera, &pixel, &point);
        let (a, b) = generate::equations(&mut source);
        let _ = solver::solve_positive_definite(&a, &b);
        let _ = point_block::solve(&source.numbers(), &source.numbers());
        let matrix = generate::matrix(&mut source);
        let _ = point_block::new(&matrix, source.mixed());
        let _ = point_block::factor_damped(&matrix);
        let _ = point_block::reciprocal_condition_number(&source.numbers(), &matrix);
        let _ = limit_pose_step(&source.numbers(), 0.5);
        let block = generate::any_block(&mut source);
        let _ = schur::point_step_with_damping_norm(&block, source.mixed(), &source.numbers());
        let system = generate::any_system(&mut source, 9);
        let system = system.add(&block, source.mixed());
        let _ = system.finish_damping(source.mixed()).is_valid();
        let _ = system.predicted_reduction(&source.numbers(), source.mixed(), source.mixed());
    }
}

#[test]
fn no_problem_panics_and_no_point_step_is_refused() {
    let mut source = Source::new(2);
    for _ in 0..4000 {
        let n = source.below(12);
        let mut case = generate::any_problem(&mut source, n);
        assert!(!matches!(step(&case.problem()), Outcome::Candidate));
        let _ = whole_step(&case.problem(), 3 * n);
        if source.once_in(4) {
            case.places().into_iter().for_each(|v| *v = source.mixed());
            assert!(!matches!(step(&case.problem()), Outcome::Candidate));
            let _ = whole_step(&case.problem(), 3 * n);
        }
    }
}

/// The block is the same whether its inverse standard deviation is handed in or made by
/// the original's noise model, wherever that model has one.
#[test]
fn deviations_arrive_unchanged() {
    let mut source = Source::new(3);
    let mut made = 0;
    for _ in 0..20_000 {
        let (rig, mut correspondence) = generate::correspondence(&mut source);
        let deviation = source.mixed().abs();
        let inverse = deviation.recip();
        if !(deviation.is_finite() && deviation > 0.0 && inverse.is_finite() && inverse > 0.0) {
            continue;
        }
        correspondence.inverse_deviation = inverse;
        match (
            linearize_point(&rig, &correspondence),
            linearize_point_with_deviation(&rig, &correspondence, deviation),
        ) {
            (Ok(given), Ok(original)) => {
                made += 1;
                assert!(all_same(&given.numbers(), &original.numbers()));
            }
            (given, original) => assert_eq!(given.err(), original.err()),
        }
    }
    assert!(made > 5000, "{made}");
}

/// The original's noise model cannot give every number: no standard deviation
/// has this reciprocal, so the reciprocals are handed in.
#[test]
fn some_inverse_deviations_have_no_deviation() {
    let wanted = 2.0_f64.next_down();
    let near = wanted.recip();
    let around = [near.next_down(), near, near.next_up()].map(f64::recip);
    assert!(around.windows(2).all(|pair| pair[0] >= pair[1]));
    assert!(around.iter().all(|&inverse| inverse != wanted));
    assert!(around[0] > wanted && around[2] < wanted);
}

/// The places at which two systems differ.
fn differing(left: &System, right: &System) -> Vec<usize> {
    (0..System::NUMBERS)
        .filter(|&place| !same(left.numbers()[place], right.numbers()[place]))
        .collect()
}

#[test]
fn the_zero_rule_touches_two_fields_of_a_system() {
    let mut source = Source::new(4);
    let mut shown = 0;
    for _ in 0..50_000 {
        let mut system = generate::any_system(&mut source, 9);
        let mut block = generate::any_block(&mut source);
        if source.once_in(8) {
            system.scaled_point_gradient_inf_norm = -0.0;
            system.minimum_point_rcond = -0.0;
        }
        if source.once_in(8) {
            block.point_hessian = [1e-320, 0.0, 0.0, 0.0, -0.0, 0.0, 0.0, 0.0, 0.0];
        }
        let damping = generate::damping(&mut source);
        let places = differing(
            &system.add(&block, damping),
            &zeros::add(&system, &block, damping),
        );
        assert!(
            places.iter().all(|place| [43, 44].contains(place)),
            "{places:?}"
        );
        shown += usize::from(!places.is_empty());
    }
    println!("unlike zeros showed in {shown} of 50000");
    assert!(shown > 0);
}

/// A new system and the block maker bring no -0 to any of the five places.
#[test]
fn no_list_of_blocks_meets_unlike_zeros() {
    let mut source = Source::new(5);
    for _ in 0..2000 {
        let damping = generate::damping(&mut source);
        let (mut plain, mut ruled) = (System::new(), System::new());
        for _ in 0..source.below(10) {
            let (rig, correspondence) = generate::correspondence(&mut source);
            if let Ok(block) = linearize_point(&rig, &correspondence) {
                plain = plain.add(&block, damping);
                ruled = zeros::add(&ruled, &block, damping);
            }
        }
        assert!(all_same(&plain.numbers(), &ruled.numbers()));
        let norm = plain.scaled_gradient_inf_norm();
        assert!(same(norm, zeros::system_gradient_norm(&ruled)));
    }
}

/// Under the rule a curvature of -0 over a lost floor counts as +0.
#[test]
fn the_zero_rule_on_a_gradient_norm() {
    let (gradient, diagonal) = ([0.0, 1.0, 0.0], [1e-320, -0.0, 1e-320]);
    let norm = zeros::scaled_gradient_inf_norm(&gradient, &diagonal);
    assert!(same(norm, f64::INFINITY));
}

/// Zeros of either sign on a diagonal, which pass through the other maxima of
/// point_block.rs (102, 115, 117), never show in a factor.
#[test]
fn no_factor_shows_the_sign_of_a_diagonal_zero() {
    let entries = [
        0.0,
        -0.0,
        f64::NAN,
        -1.0,
        1e-320,
        1e-300,
        1.0,
        f64::INFINITY,
    ];
    let dampings = [0.0, -0.0, 1e-300, 1.0, 1e300];
    let mut source = Source::new(8);
    for choice in 0..8 * 8 * 8 {
        let mut matrix = generate::matrix(&mut source);
        for coordinate in 0..3 {
            matrix[4 * coordinate] = entries[choice >> (3 * coordinate) & 7];
        }
        let mut flipped = matrix;
        for entry in flipped.iter_mut().step_by(4).filter(|entry| **entry == 0.0) {
            *entry = -*entry;
        }
        for damping in dampings {
            let factors = |m: &[f64; 9]| {
                [point_block::new(m, damping), point_block::factor_damped(m)]
                    .map(|factor| factor.map(|six| six.map(f64::to_bits)))
            };
            assert_eq!(factors(&matrix), factors(&flipped));
        }
    }
}

#[test]
fn the_zero_rule_on_the_damping_diagonal() {
    let matrix = [1e-320, 0.0, 0.0, 0.0, -0.0, 0.0, 0.0, 0.0, 1e-320];
    let ruled = zeros::damping_diagonal(&matrix).expect("a positive entry");
    assert!(all_same(&ruled, &[1e-320, 0.0, 1e-320]));
    let damped = zeros::damped_matrix(&matrix, 1.0).expect("a positive entry");
    assert!(same(damped[4], 0.0));
    assert!(point_block::new(&matrix, 1.0).is_none());
    let mut source = Source::new(6);
    for _ in 0..50_000 {
        let matrix = generate::matrix(&mut source);
        let plain = point_block::damping_diagonal(&matrix);
        match (plain, zeros::damping_diagonal(&matrix)) {
            (None, None) => {}
            (Some(plain), Some(ruled)) => {
                let alike =
                    |c: usize| same(plain[c], ruled[c]) || (plain[c] == 0.0 && ruled[c] == 0.0);
                assert!((0..3).all(alike));
            }
            other => panic!("{other:?}"),
        }
    }
}
