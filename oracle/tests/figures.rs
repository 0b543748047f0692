//! The figures of docs/SPECIFICATION.md, "Worked figures", that concern functions
//! of the original.

use oracle::flat::{all_same, same};
use oracle::optimizer::{Problem, Refusal, limit_pose_step, whole_step};
use oracle::point_block::{self, RCOND_THRESHOLD};
use oracle::projection::pixel_projection;
use oracle::schur::{Correspondence, Rig, System, linearize_point};

fn two_to(exponent: i32) -> f64 {
    2.0_f64.powi(exponent)
}

fn diagonal(a: f64, b: f64, c: f64) -> [f64; 9] {
    [a, 0.0, 0.0, 0.0, b, 0.0, 0.0, 0.0, c]
}

fn rcond(matrix: &[f64; 9]) -> Option<f64> {
    let factor = point_block::new(matrix, 0.0)?;
    Some(point_block::reciprocal_condition_number(&factor, matrix))
}

#[test]
fn roots() {
    assert_eq!(2.0_f64.sqrt().to_bits(), 0x3FF6_A09E_667F_3BCD);
    assert!(same(4.0_f64.sqrt(), 2.0));
    assert!(same((-0.0_f64).sqrt(), -0.0));
}

#[test]
fn projection() {
    let (residual, jacobian) =
        pixel_projection(&[2.0, 2.0, 1.0, 1.0, 0.0], &[1.5, 1.0], &[1.0, 2.0, 4.0])
            .expect("projectable");
    assert!(all_same(&residual, &[0.0, 1.0]));
    // The zeros are +0; the skew of +0 gives the first row's middle entry.
    assert!(all_same(&jacobian, &[0.5, 0.0, -0.125, 0.0, 0.5, -0.25]));
}

#[test]
fn depths() {
    let seen = |point| pixel_projection(&[1.0, 1.0, 0.0, 0.0, 0.0], &[0.0; 2], &point).is_some();
    assert!(!seen([1.0, 0.0, two_to(-46)]));
    assert!(seen([1.0, 0.0, two_to(-46).next_up()]));
    assert!(!seen([0.0, 0.0, 1e-200]));
    assert!(!seen([0.0; 3]));
}

#[test]
fn blocks() {
    assert_eq!(rcond(&diagonal(4.0, 1.0, 1.0)), Some(0.25));
    assert_eq!(rcond(&diagonal(1.0, 1.0, two_to(-46))), Some(two_to(-46)));
    assert!(two_to(-46) <= RCOND_THRESHOLD);
    assert!(rcond(&diagonal(1.0, 1.0, two_to(-44))).expect("factors") > RCOND_THRESHOLD);
    assert_eq!(rcond(&diagonal(1.0, 1.0, two_to(-92))), None);
    assert!(rcond(&diagonal(1.0, 1.0, two_to(-91))).is_some());
    assert_eq!(rcond(&diagonal(1e308, 1.0, 1.0)), None);
    assert_eq!(rcond(&[0.0; 9]), None);
    assert!(same(RCOND_THRESHOLD, 192.0 * f64::EPSILON));
}

#[test]
fn damped_block() {
    let block = diagonal(1.0, 1.0, 0.0);
    assert!(point_block::new(&block, 0.0).is_none());
    assert!(point_block::new(&block, 1.0).is_some());
}

#[test]
fn step_limit() {
    let limited = |first| limit_pose_step(&[first, 0.0, 0.0, 0.0, 0.0], 0.5);
    assert!(all_same(&limited(1.0), &[0.5, 0.0, 0.0, 0.0, 0.0]));
    assert!(all_same(&limited(0.5), &[0.5, 0.0, 0.0, 0.0, 0.0]));
    // Both norms NaN: the comparison is false and the vector passes through.
    let step = [f64::NAN, 1.0, 2.0, f64::NAN, 3.0];
    assert!(all_same(&limit_pose_step(&step, 0.5), &step));
}

/// ∞ × 0 in a solve with a unit vector shows only there.
#[test]
fn rcond_through_solves() {
    let inverse = [f64::INFINITY, 0.0, 1.0, 0.0, 0.0, 1.0];
    let rcond = point_block::reciprocal_condition_number(&inverse, &diagonal(1.0, 1.0, 1.0));
    // Row 0 is infinite in one place and NaN in two, so it is passed over.
    assert!(same(rcond, 1.0));
}

/// The rig and the five correspondences of the sample list.
fn sample() -> (Rig, Vec<Correspondence>) {
    let camera = [1.0, 1.0, 0.0, 0.0, 0.0];
    let rig = Rig {
        cameras: [camera; 2],
        rotation: diagonal(1.0, 1.0, 1.0),
        translation: [0.0, 0.0, 1.0],
        basis: [1.0, 0.0, 0.0, 0.0, 1.0, 0.0],
        baseline: 1.0,
    };
    let places = [[0.0, 0.0], [1.0, 0.0], [-1.0, 0.0], [0.0, 1.0], [0.0, -1.0]];
    let mut correspondences: Vec<Correspondence> = places
        .map(|[x, y]| Correspondence {
            point: [x, y, 1.0],
            view1: [x, y],
            view2: [x / 2.0, y / 2.0],
            inverse_deviation: 1.0,
        })
        .to_vec();
    correspondences[0].view1 = [0.0, 1.0];
    (rig, correspondences)
}

#[test]
fn sample_list() {
    let (rig, correspondences) = sample();
    let mut system = System::new();
    let mut letters = String::new();
    for correspondence in &correspondences {
        let block = linearize_point(&rig, correspondence).expect("projectable");
        letters.push(match rcond(&block.point_hessian) {
            None => 'n',
            Some(rcond) if rcond <= RCOND_THRESHOLD => 'w',
            Some(_) => 'g',
        });
        system = system.add(&block, 0.0);
    }
    let finished = system.finish_damping(0.0);
    assert_eq!(letters, "ngggg");
    assert_eq!(finished.cost.to_bits(), 0x3FE0_0000_0000_0000);
    assert_eq!(finished.squared_residual.to_bits(), 0x3FF0_0000_0000_0000);
    assert_eq!((finished.weak_point_count, finished.is_valid()), (1, false));
}

struct Flat {
    rig: Rig,
    points: Vec<f64>,
    view1: Vec<f64>,
    view2: Vec<f64>,
    inverse_deviations: Vec<f64>,
}

impl Flat {
    /// The sample without its first correspondence, and that seen from the side instead.
    fn sound() -> Self {
        let (rig, mut correspondences) = sample();
        correspondences[0] = Correspondence {
            point: [1.0, 1.0, 2.0],
            view1: [0.5, 0.5],
            view2: [0.4, 0.3],
            inverse_deviation: 1.0,
        };
        Self {
            rig,
            points: correspondences
                .iter()
                .flat_map(|correspondence| correspondence.point)
                .collect(),
            view1: correspondences
                .iter()
                .flat_map(|correspondence| correspondence.view1)
                .collect(),
            view2: correspondences
                .iter()
                .flat_map(|correspondence| correspondence.view2)
                .collect(),
            inverse_deviations: correspondences
                .iter()
                .map(|correspondence| correspondence.inverse_deviation)
                .collect(),
        }
    }

    fn refusal_at(&self, damping: f64, room: usize) -> Option<(u32, usize, usize)> {
        let problem = Problem {
            rig: self.rig,
            damping,
            points: &self.points,
            view1: &self.view1,
            view2: &self.view2,
            inverse_deviations: &self.inverse_deviations,
        };
        let tuple = |refusal: Refusal| (refusal.number, refusal.view, refusal.index);
        whole_step(&problem, room).err().map(tuple)
    }

    fn refusal(&self) -> Option<(u32, usize, usize)> {
        self.refusal_at(0.0, self.points.len())
    }
}

/// A change to a sound plate and the refusal that follows.
type Change = (fn(&mut Flat), (u32, usize, usize));

#[test]
fn refusals() {
    assert_eq!(Flat::sound().refusal_at(1.0, 15), None);
    assert_eq!(Flat::sound().refusal_at(1.0, 14), Some((1, 0, 0)));
    assert_eq!(Flat::sound().refusal_at(-1.0, 15), Some((3, 0, 0)));
    let changes: [Change; 9] = [
        (|flat| flat.view1.truncate(9), (1, 0, 0)),
        (|flat| flat.inverse_deviations[2] = 0.0, (4, 0, 2)),
        (|flat| flat.rig.baseline = two_to(-46), (5, 0, 0)),
        (|flat| flat.points[0] = f64::NAN, (6, 0, 0)),
        (shorten, (7, 0, 0)),
        (|flat| flat.view2[6] = f64::INFINITY, (8, 2, 3)),
        (|flat| flat.points[..3].fill(0.0), (9, 1, 0)),
        (|flat| flat.rig.translation[0] = f64::NAN, (9, 2, 0)),
        (|flat| flat.rig.basis = [0.0; 6], (11, 0, 0)),
    ];
    for (change, expected) in changes {
        let mut flat = Flat::sound();
        change(&mut flat);
        assert_eq!(flat.refusal(), Some(expected));
    }
}

fn shorten(flat: &mut Flat) {
    flat.points.truncate(12);
    flat.view1.truncate(8);
    flat.view2.truncate(8);
    flat.inverse_deviations.truncate(4);
}

#[test]
fn sizes() {
    let mut flat = Flat::sound();
    flat.points = [0.0, 0.0, 1.0].repeat(65_536);
    flat.view1 = vec![0.0; 2 * 65_536];
    flat.view2 = vec![0.0; 2 * 65_536];
    flat.inverse_deviations = vec![1.0; 65_536];
    assert_eq!(flat.refusal(), Some((2, 0, 0)));
}

/// A correspondence on the line through both lenses does not factor: row 10.
#[test]
fn not_valid() {
    let mut flat = Flat::sound();
    flat.points[..3].copy_from_slice(&[0.0, 0.0, 1.0]);
    assert_eq!(flat.refusal(), Some((10, 0, 0)));
}
