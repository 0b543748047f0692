//! A whole step, its refusals and the limit of the pose step, through the
//! static library.

use pixel_step::{Problem, Refusal, Rig, limit_pose_step, slices, step};

/// Cameras (1, 1, 0, 0, 0), no rotation, translation (1, 0, 0), baseline 1.
fn rig() -> Rig {
    let camera = [1.0, 1.0, 0.0, 0.0, 0.0];
    let rotation = [1.0, 0.0, 0.0, 0.0, 1.0, 0.0, 0.0, 0.0, 1.0];
    let rest = [1.0, 0.0, 0.0, 0.0, 1.0, 0.0, 0.0, 0.0, 1.0, 1.0];
    let numbers = [&camera[..], &camera, &rotation, &rest].concat();
    numbers.try_into().expect("29 numbers")
}

const POINTS: [f64; 15] = [
    0.0, 0.0, 2.0, 1.0, 0.0, 4.0, -1.0, 0.0, 2.0, 0.0, 1.0, 4.0, 0.0, -1.0, 2.0,
];
const VIEW1: [f64; 10] = [0.0, 0.0, 0.25, 0.0, -0.5, 0.0, 0.0, 0.25, 0.0, -0.5];
const VIEW2: [f64; 10] = [0.5, 0.0, 0.5, 0.0, 0.0, 0.0, 0.25, 0.25, 0.5, -0.5];

fn problem(rig: &Rig) -> Problem<'_> {
    Problem {
        points: &POINTS,
        view1: &VIEW1,
        view2: &VIEW2,
        inverse_deviations: &[1.0; 5],
        rig,
        damping: 1.0,
    }
}

/// Seen without error, nothing moves.
#[test]
fn a_step_of_nothing() {
    let (rig, mut room) = (rig(), [7.0; 15]);
    let done = step(&problem(&rig), &mut room).expect("a step");
    assert_eq!(done.pose_step, [0.0; 5]);
    assert_eq!((done.cost, done.squared_residual), (0.0, 0.0));
    assert_eq!((done.gradient_norm, done.weak_point_count), (0.0, 0));
    assert_eq!((done.point_step_rms, done.point_damping_norm), (0.0, 0.0));
    assert_eq!(done.predicted_reduction, 0.0);
    assert_eq!(room, [0.0; 15]);
}

/// One observation is off: the step is predicted to gain at most the cost.
#[test]
fn a_step_gains() {
    let (rig, mut room, mut view1) = (rig(), [7.0; 15], VIEW1);
    view1[1] = 0.5;
    let off = Problem {
        view1: &view1,
        ..problem(&rig)
    };
    let done = step(&off, &mut room).expect("a step");
    assert_eq!((done.cost, done.squared_residual), (0.125, 0.25));
    assert!(done.predicted_reduction > 0.0 && done.predicted_reduction <= done.cost);
    assert!(done.point_step_rms > 0.0);
    assert!(
        room.iter()
            .all(|number| number.is_finite() && *number != 7.0)
    );
}

#[test]
fn refusals_leave_the_room() {
    let (rig, mut room) = (rig(), [7.0; 15]);
    let sound = problem(&rig);
    let mut view2 = VIEW2;
    view2[7] = f64::INFINITY;
    let unseen = Problem {
        view2: &view2,
        ..sound
    };
    for (bad, row, view, index) in [
        (
            Problem {
                view1: &[],
                ..sound
            },
            1,
            0,
            0,
        ),
        (
            Problem {
                damping: -1.0,
                ..sound
            },
            3,
            0,
            0,
        ),
        (unseen, 8, 2, 3),
    ] {
        let refusal = Refusal {
            number: row,
            view,
            index,
        };
        assert_eq!(step(&bad, &mut room), Err(refusal));
    }
    assert_eq!(room, [7.0; 15]);
}

/// A length that does not fit is row 1, and nothing lent is written.
#[test]
fn lengths() {
    let (rig, mut room, mut out, mut weak) = (rig(), [7.0; 16], [7.0; 13], [7_u16; 2]);
    let mut call = |rig: &[f64], rooms: usize, outs: usize, weaks: usize| {
        let (room, out, weak) = (&mut room[..rooms], &mut out[..outs], &mut weak[..weaks]);
        slices::step(
            &POINTS, &VIEW1, &VIEW2, &[1.0; 5], rig, 1.0, room, out, weak,
        )
    };
    let codes = [
        call(&rig[..28], 15, 12, 1),
        call(&rig, 16, 12, 1),
        call(&rig, 15, 13, 1),
        call(&rig, 15, 12, 2),
        call(&rig, 15, 12, 0),
    ];
    assert_eq!(codes, [1; 5]);
    assert_eq!((room, out, weak), ([7.0; 16], [7.0; 13], [7; 2]));
}

#[test]
fn the_limit() {
    let half = [0.5, 0.0, 0.0, 0.0, 0.0];
    assert_eq!(limit_pose_step(&[1.0, 0.0, 0.0, 0.0, 0.0]), Ok(half));
    assert_eq!(limit_pose_step(&half), Ok(half));
    assert_eq!(slices::limit_pose_step(&half[..4], &mut [0.0; 5]), 1);
}
