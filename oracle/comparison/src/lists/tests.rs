//! Lists under the driver, and a difference in one.

use super::*;

fn options(cases: u64) -> Options {
    let words = ["--function", NAME, "--cases", &cases.to_string()].map(String::from);
    Options::parse(words.into_iter()).expect("good words")
}

/// Each answer comes up, and nothing differs.
#[test]
fn lists_have_every_answer() {
    let tally = over_threads(&options(2000));
    assert_eq!((tally.lists, tally.differences), (2000, 0));
    assert_eq!(tally.never_seen(), Vec::<String>::new());
}

/// Which thread takes a list changes nothing.
#[test]
fn threads_do_not_matter() {
    let one = Options {
        threads: 1,
        ..options(200)
    };
    let three = Options {
        threads: 3,
        ..options(200)
    };
    assert_eq!(
        over_threads(&one).to_string(),
        over_threads(&three).to_string()
    );
}

/// Where the sides have other systems, the call differs.
#[test]
fn a_difference_is_found() {
    let mut pair = Pair::of(&[&[1.0; 45]]).with(&Pair {
        port: vec![vec![0, 0, 1]],
        oracle: vec![vec![0, 0, 1]],
    });
    pair.oracle[0][30] = 2.0_f64.to_bits();
    let given = pair.with(&Pair::of(&[&[0.0]]));
    let finished = both(
        &f::system_finish_damping::FUNCTION,
        given,
        &mut Tally::default(),
    );
    assert!(finished.is_err_and(|differs| differs.1.0.len() == 3));
}
