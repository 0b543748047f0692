//! The driver on calls with known faults.

use super::*;
use crate::function::{Kind, lent, number, open, room};
use crate::memory::{Lent, Rooms};

/// The second of two numbers less a value; row 9 where that is below zero.
const SOUND: Function = Function {
    name: "difference",
    arguments: &[lent("list", 2), number("value"), room(1)],
    rows: &[9],
    walk: None,
    generate: |source| Input::of(&[&source.numbers::<2>(), &[source.mixed()]]),
    port: |lent, rooms| sound(lent, rooms),
    oracle: |input| {
        let (list, value) = (input.numbers::<2>(0), input.number(1));
        Answer::or_row((value >= 0.0).then(|| [list[1] - value]), 9)
    },
    plain: None,
};

fn sound(lent: &Lent<'_>, rooms: &mut Rooms<'_>) -> u64 {
    let (list, value) = (lent.numbers(0), lent.number(1));
    if list.len() != 2 || rooms.numbers[0].len() != 1 {
        return 1;
    }
    if value >= 0.0 {
        return crate::function::give(rooms, list[1] - value);
    }
    9
}

/// A neighbor of the result.
const NEIGHBOUR: Function = Function {
    port: |lent, rooms| {
        let code = sound(lent, rooms);
        if code == 0 {
            rooms.numbers[0][0] = rooms.numbers[0][0].next_up();
        }
        code
    },
    ..SOUND
};

/// View 1 where there is none.
const VIEW: Function = Function {
    port: |lent, rooms| match sound(lent, rooms) {
        9 => 9 + 256,
        code => code,
    },
    ..SOUND
};

/// A zero in the room beside a refusal.
const WRITTEN: Function = Function {
    port: |lent, rooms| match sound(lent, rooms) {
        9 => crate::function::give(rooms, 0.0) + 9,
        code => code,
    },
    ..SOUND
};

/// Another row for lengths.
const LENGTHS: Function = Function {
    port: |lent, rooms| match sound(lent, rooms) {
        1 => 2,
        code => code,
    },
    ..SOUND
};

/// Sums of two lists of any length; row 1 where the lengths do not belong
/// together.
const OPEN: Function = Function {
    name: "sums",
    arguments: &[
        open("left", Kind::Numbers),
        open("right", Kind::Numbers),
        open("room", Kind::Room),
    ],
    rows: &[1],
    walk: None,
    generate: |source| {
        let lengths: [usize; 3] = std::array::from_fn(|_| 2 + source.below(2));
        Input(
            lengths
                .map(|length| vec![source.next_bits(); length])
                .to_vec(),
        )
    },
    port: |lent, rooms| {
        let (left, right) = (lent.numbers(0), lent.numbers(1));
        if left.len() != right.len() || left.len() != rooms.numbers[0].len() {
            return 1;
        }
        for (index, sum) in rooms.numbers[0].iter_mut().enumerate() {
            *sum = left[index] + right[index];
        }
        0
    },
    oracle: |input| {
        let [left, right, room] = [0, 1, 2].map(|place| &input.0[place]);
        if left.len() != right.len() || left.len() != room.len() {
            return Answer::row(1);
        }
        let sum = |(l, r): (&u64, &u64)| f64::from_bits(*l) + f64::from_bits(*r);
        Answer::numbers(&left.iter().zip(right).map(sum).collect::<Vec<_>>())
    },
    plain: None,
};

fn options(threads: u64) -> Options {
    Options {
        cases: 2000,
        seed: 11,
        functions: Vec::new(),
        lists: false,
        sample: None,
        lines: 0,
        threads,
    }
}

#[test]
fn a_sound_call_does_not_differ() {
    assert_eq!(over_threads(&SOUND, &options(2)).differences, 0);
    assert!(run(&SOUND, &options(2)));
}

#[test]
fn open_lengths_are_the_oracles() {
    let tally = over_threads(&OPEN, &options(2));
    assert_eq!((tally.differences, tally.cases()), (0, 2000));
    assert!(tally.results > 200 && tally.refused[&1] > 200);
}

#[test]
fn each_fault_is_found() {
    for fault in [NEIGHBOUR, VIEW, WRITTEN, LENGTHS] {
        assert!(over_threads(&fault, &options(2)).differences > 100);
        assert!(!run(&fault, &options(2)));
    }
}

/// Counts and the first difference are the same over any number of threads.
#[test]
fn threads_do_not_show() {
    let tallies = [1, 2, 5].map(|threads| over_threads(&VIEW, &options(threads)));
    for tally in &tallies {
        assert_eq!(format!("{tally:?}"), format!("{:?}", tallies[0]));
    }
}
