//! One side's whole step by itself, for a counter of instructions or a
//! profiler around it.

use std::hint::black_box;
use std::time::{Duration, Instant};

use crate::calls::{port_step, rust_step};
use crate::problem::{Problem, case};

/// One step.
pub fn run(side: &str, points: &str, damping: &str) {
    with_step(side, points, damping, |step| step());
}

/// Steps for five seconds.
pub fn repeat(side: &str, points: &str, damping: &str) {
    with_step(side, points, damping, |step| {
        let start = Instant::now();
        while start.elapsed() < Duration::from_secs(5) {
            step();
        }
    });
}

fn with_step(side: &str, points: &str, damping: &str, work: impl FnOnce(&mut dyn FnMut())) {
    let n = points.parse().expect("a number of points");
    let case = case(n, damping.parse().expect("a damping"));
    let problem = Problem::new(&case);
    let mut room = vec![0.0; 3 * n];
    work(&mut || match side {
        "rust" => {
            black_box(rust_step(&problem, &mut room).expect("a step"));
        }
        _ => {
            black_box(port_step(&problem, &mut room).expect("a step"));
        }
    });
}
