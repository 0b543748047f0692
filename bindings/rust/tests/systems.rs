//! The sample of docs/SPECIFICATION.md, "List", and each refusal of the block maker,
//! the system and the point step, through the static library.

use pixel_step::{Block, Correspondence, Refusal, Rig, System, slices};

fn refused(number: u8, view: u8) -> Refusal {
    Refusal {
        number,
        view,
        index: 0,
    }
}

/// Cameras (1, 1, 0, 0, 0), no rotation, translation (0, 0, 1), baseline 1.
fn rig() -> Rig {
    let camera = [1.0, 1.0, 0.0, 0.0, 0.0];
    let rotation = [1.0, 0.0, 0.0, 0.0, 1.0, 0.0, 0.0, 0.0, 1.0];
    let rest = [0.0, 0.0, 1.0, 1.0, 0.0, 0.0, 0.0, 1.0, 0.0, 1.0];
    let numbers = [&camera[..], &camera, &rotation, &rest].concat();
    numbers.try_into().expect("29 numbers")
}

/// The point (x, y, 1), seen without error but for view 1, `off` too high.
fn block(x: f64, y: f64, off: f64) -> Block {
    let correspondence = [x, y, 1.0, x, y + off, 0.5 * x, 0.5 * y, 1.0];
    pixel_step::linearize_point(&rig(), &correspondence).expect("projectable")
}

const SAMPLE: [[f64; 2]; 5] = [[0.0, 0.0], [1.0, 0.0], [-1.0, 0.0], [0.0, 1.0], [0.0, -1.0]];

#[test]
fn the_sample() {
    let mut system = System::new().expect("never refused");
    assert_eq!((system.counts, system.numbers[44]), ([0, 0, 1], 1.0));
    for (index, [x, y]) in SAMPLE.into_iter().enumerate() {
        let off = if index == 0 { 1.0 } else { 0.0 };
        system.add(&block(x, y, off), 0.0).expect("taken in");
    }
    assert_eq!(system.counts, [1, 5, 0]);
    assert_eq!((system.numbers[30], system.numbers[31]), (0.5, 1.0));
    system.finish_damping(0.0).expect("a good damping");
    assert_eq!(system.is_valid(), Ok(false));
}

#[test]
fn a_valid_system() {
    let mut system = System::new().expect("never refused");
    for [x, y] in SAMPLE.into_iter().skip(1) {
        system.add(&block(x, y, 0.0), 1.0).expect("taken in");
    }
    system.finish_damping(1.0).expect("a good damping");
    assert_eq!(system.is_valid(), Ok(true));
    assert_eq!(system.scaled_gradient_inf_norm(), Ok(0.0));
    assert_eq!(system.predicted_reduction(&[0.0; 5], 1.0, 2.0), Ok(1.0));
    let step = pixel_step::point_step_with_damping_norm(&block(1.0, 0.0, 0.0), 1.0, &[0.0; 5]);
    assert_eq!(step.map(|step| step.damping_norm), Ok(0.0));
}

fn made(rig: &Rig, correspondence: &Correspondence) -> Result<(), Refusal> {
    pixel_step::linearize_point(rig, correspondence).map(|_| ())
}

#[test]
fn refusals() {
    let (mut rig, mut correspondence) = (rig(), [0.0, 0.0, 1.0, 0.0, 0.0, 0.0, 0.0, 0.0]);
    assert_eq!(made(&rig, &correspondence), Err(refused(4, 0)));
    correspondence[7] = 1.0;
    rig[21] = f64::NAN;
    assert_eq!(made(&rig, &correspondence), Err(refused(9, 2)));
    correspondence[2] = 0.0;
    assert_eq!(made(&rig, &correspondence), Err(refused(9, 1)));
    let (flat, step) = (block(0.0, 0.0, 0.0), [0.0; 5]);
    let stepped = |damping| pixel_step::point_step_with_damping_norm(&flat, damping, &step);
    assert_eq!(stepped(-1.0), Err(refused(3, 0)));
    assert_eq!(stepped(0.0), Err(refused(10, 0)));
}

/// A refused call leaves the system as it was, its flag of 7 too.
#[test]
fn refused_calls_on_a_system() {
    let good = block(1.0, 0.0, 0.0);
    let with = |weak, blocks| System {
        numbers: [2.5; 45],
        counts: [weak, blocks, 7],
    };
    for (system, damping, row) in [
        (with(0, 0), -1.0, 3),
        (with(2, 1), f64::NAN, 3),
        (with(2, 1), 0.0, 12),
        (with(1, 65_535), 0.0, 13),
    ] {
        let mut after = system;
        assert_eq!(after.add(&good, damping), Err(refused(row, 0)));
        assert_eq!(after, system);
    }
    let mut after = with(2, 1);
    assert_eq!(after.finish_damping(-1.0), Err(refused(3, 0)));
    assert_eq!(after, with(2, 1));
    let reduction = after.predicted_reduction(&[1.0; 5], f64::INFINITY, 0.0);
    assert_eq!(reduction, Err(refused(3, 0)));
    assert_eq!(after.finish_damping(0.0), Ok(()));
    assert_eq!(after.counts, [2, 1, 1]);
}

/// A length that does not fit is row 1, and the memory stays as it was.
#[test]
fn lengths() {
    let (mut numbers, mut counts, mut flag) = ([7.0; 60], [7_u16; 4], [7_u16; 1]);
    let (many, three) = ([1.0; 59], [1_u16; 3]);
    let codes = [
        slices::linearize_point(&many[..28], &many[..8], &mut numbers[..59]),
        slices::point_step_with_damping_norm(&many, 0.0, &many[..5], &mut numbers[..5]),
        slices::system_new(&mut numbers[..45], &mut counts),
        slices::system_add(&mut numbers[..44], &mut counts[..3], &many, 0.0),
        slices::system_add(&mut numbers[..45], &mut counts[..3], &many[..58], -1.0),
        slices::system_finish_damping(&mut numbers, &mut counts[..3], 0.0),
        slices::system_is_valid(&many[..45], &three[..2], &mut flag),
        slices::system_scaled_gradient_inf_norm(&many[..45], &three, &mut numbers[..2]),
        slices::system_predicted_reduction(&many, &three, &many[..5], 0.0, 0.0, &mut numbers[..1]),
    ];
    assert_eq!(codes, [1; 9]);
    assert_eq!((numbers, counts, flag), ([7.0; 60], [7; 4], [7]));
}
