//! The harness's sequence of calls against the original's own loop: one pass of
//! `refine_impl`, unchanged, must show the same step wherever it can take the
//! same inputs.

use oracle::flat::{all_same, same};
use oracle::generate::{self, Case, Source};
use oracle::optimizer::{Outcome, Pass, Problem, Step, norm, refine_once, step};

const CASES: u64 = 3000;

/// A case whose baseline is the norm of its translation.
fn case(seed: u64) -> Case {
    let mut source = Source::new(seed);
    let n = source.below(14);
    let mut case = generate::any_problem(&mut source, n);
    case.rig.baseline = norm(&case.rig.translation);
    case
}

fn check_step(problem: &Problem<'_>, step: &Step, refused: &Pass, accepted: &Pass) {
    assert_eq!(
        (refused.linearization, refused.step_solve, refused.candidate),
        (0, 0, 0)
    );
    for pass in [refused, accepted] {
        assert!(all_same(&pass.pose_step, &step.pose_step));
        assert!(same(pass.cost, step.cost));
        assert!(same(pass.predicted_reduction, step.predicted_reduction));
    }
    let rms = step.point_step_rms;
    let squares: f64 = step.pose_step.iter().map(|value| value * value).sum();
    let pose_rms = (squares / 5.0).sqrt();
    assert!(same(
        accepted.step_norm,
        (pose_rms * pose_rms + rms * rms).sqrt()
    ));
    let moved: Vec<f64> = (problem.points.iter().zip(&step.point_steps))
        .map(|(point, step)| point + problem.rig.baseline * step)
        .collect();
    assert!(all_same(&accepted.points, &moved));
    if problem.damping == 0.0 && step.system.is_valid() {
        assert!(same(refused.gradient_norm, step.gradient_norm));
        assert_eq!(refused.weak_point_count, step.weak_point_count);
        assert!(same(refused.minimum_point_rcond, step.minimum_point_rcond));
    }
}

/// Checks one case and says how it ended.
fn check(seed: u64) -> usize {
    let case = case(seed);
    let problem = case.problem();
    let pass = |accept| refine_once(&problem, accept).expect("the baseline is the norm");
    match (step(&problem), pass(false), pass(true)) {
        (Outcome::Done(step), Ok(refused), Ok(accepted)) => {
            check_step(&problem, &step, &refused, &accepted);
            0
        }
        (Outcome::NotProjectable(view, index), Err(place), Err(_)) => {
            assert_eq!((view, index), place);
            1
        }
        (Outcome::Linearization, Ok(pass), Ok(_)) => {
            assert_eq!((pass.linearization, pass.step_solve), (1, 0));
            2
        }
        (Outcome::StepSolve, Ok(pass), Ok(_)) => {
            assert_eq!((pass.linearization, pass.step_solve), (0, 1));
            3
        }
        (outcome, _, _) => panic!("seed {seed}: {outcome:?}"),
    }
}

#[test]
fn one_pass_of_the_loop_is_the_step() {
    let mut ends = [0; 4];
    for seed in 0..CASES {
        ends[check(seed)] += 1;
    }
    println!("done, not projectable, not valid, no solve: {ends:?}");
    assert!(ends.iter().all(|&count| count > 50), "{ends:?}");
}
