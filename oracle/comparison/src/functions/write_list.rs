//! `write_list`: the list of a run record, the line of a refused one included,
//! in rooms that it fits and in shorter ones, which have to stay as they were.

use oracle::generate::{Source, problem};
use oracle::record;
use oracle::records::{any_record, starts};

use crate::function::{Answer, Argument, Function, Kind, Walk, give, open, returned_word};
use crate::input::{Input, bytes, fill};
use crate::memory::{Lent, Rooms};

/// Room for the longest list, 4,057 bytes for 512 points, and 18 to spare.
const ROOM: usize = 4075;

const ARGUMENTS: [Argument; 3] = [
    open("record", Kind::Bytes),
    open("out", Kind::ByteRoom),
    returned_word(),
];

pub const FUNCTION: Function = function::<Port>();

/// The good record that is cut and broken has so many points, and bytes.
const POINTS: usize = 7;
const LENGTH: usize = 255 + 67 * POINTS;

/// Every prefix of a good record, then every other byte in the place of each tag
/// and length of its fields.
const EVERY_CUT_AND_START: Walk = Walk {
    count: (LENGTH + 1 + (5 + POINTS) * 3 * 255) as u64,
    input: |case, _| {
        let mut record = good_record();
        match (case as usize).checked_sub(LENGTH + 1) {
            None => record.truncate(case as usize),
            Some(change) => {
                let byte = &mut record[starts(POINTS)[change / 765] + change / 255 % 3];
                *byte = byte.wrapping_add((change % 255 + 1) as u8);
            }
        }
        of_record(record, ROOM)
    },
};

fn good_record() -> Vec<u8> {
    let mut case = problem(&mut Source::new(1), POINTS);
    case.damping = 0.0;
    oracle::records::record(&case)
}

/// A record, with a room of so many bytes.
fn of_record(record: Vec<u8>, room: usize) -> Input {
    let record = record.into_iter().map(u64::from).collect();
    Input(vec![record, vec![fill(Kind::ByteRoom); room]])
}

/// The call: writes the list into the front of `out` if it fits there, and gives
/// its length.
trait WriteList {
    fn write_list(record: &[u8], out: &mut [u8]) -> usize;
}

struct Port;

impl WriteList for Port {
    fn write_list(record: &[u8], out: &mut [u8]) -> usize {
        pixel_step::write_list(record, out).unwrap_or_else(|length| length)
    }
}

/// The comparison of one such call.
const fn function<Call: WriteList>() -> Function {
    Function {
        name: "write_list",
        arguments: &ARGUMENTS,
        rows: &[],
        walk: Some(EVERY_CUT_AND_START),
        generate: |source| {
            let record = any_record(source);
            let room = room(source);
            of_record(record, room)
        },
        port: call::<Call>,
        oracle: answer,
        plain: None,
    }
}

/// One room in eight may be too short.
fn room(source: &mut Source) -> usize {
    match source.below(16) {
        0 => source.below(ROOM),
        1 => source.below(200),
        _ => ROOM,
    }
}

/// The length goes where the driver reads it.
fn call<Call: WriteList>(lent: &Lent<'_>, rooms: &mut Rooms<'_>) -> u64 {
    let length = Call::write_list(lent.bytes(0), rooms.bytes[0]);
    give(rooms, f64::from_bits(length as u64))
}

/// The list in the front of the room, which is else as it was, and its length.
fn answer(input: &Input) -> Answer {
    let list = record::list(&bytes(&input.0[0]));
    let mut room = input.0[1].clone();
    if list.len() <= room.len() {
        room.splice(..list.len(), list.iter().copied().map(u64::from));
    }
    Answer::Result(vec![room, vec![list.len() as u64]])
}

#[cfg(test)]
mod tests {
    use std::collections::BTreeMap;

    use oracle::generate::{Fault, faulty};

    use super::*;
    use crate::check::{Expected, check};
    use crate::shrink::shrink;

    const CASES: u64 = 1000;

    /// The oracle in the port's place.
    struct Sound;

    impl WriteList for Sound {
        fn write_list(record: &[u8], out: &mut [u8]) -> usize {
            let list = record::list(record);
            if list.len() <= out.len() {
                out[..list.len()].copy_from_slice(&list);
            }
            list.len()
        }
    }

    /// A zero behind the list.
    struct Ended;

    impl WriteList for Ended {
        fn write_list(record: &[u8], out: &mut [u8]) -> usize {
            let length = Sound::write_list(record, out);
            if length < out.len() {
                out[length] = 0;
            }
            length
        }
    }

    /// As much of the list as fits.
    struct Cut;

    impl WriteList for Cut {
        fn write_list(record: &[u8], out: &mut [u8]) -> usize {
            let list = record::list(record);
            let part = list.len().min(out.len());
            out[..part].copy_from_slice(&list[..part]);
            list.len()
        }
    }

    /// A length one short.
    struct Short;

    impl WriteList for Short {
        fn write_list(record: &[u8], out: &mut [u8]) -> usize {
            Sound::write_list(record, out) - 1
        }
    }

    /// Weak correspondences are good ones.
    struct Mild;

    impl WriteList for Mild {
        fn write_list(record: &[u8], out: &mut [u8]) -> usize {
            let length = Sound::write_list(record, out);
            let weak = out.iter_mut().take(length).filter(|byte| **byte == b'w');
            weak.for_each(|byte| *byte = b'g');
            length
        }
    }

    /// How many of the seeded cases differ, and the first that does.
    fn differences(function: &Function) -> (u64, Option<Input>) {
        let first = function.walked();
        let inputs = (first..first + CASES).map(|case| function.input(3, case));
        let mut differ = inputs.filter(|input| {
            let answer = (function.oracle)(input);
            check(function, input, &answer).is_some()
        });
        let first = differ.next();
        (u64::from(first.is_some()) + differ.count() as u64, first)
    }

    #[test]
    fn a_sound_call_does_not_differ() {
        assert_eq!(differences(&function::<Sound>()).0, 0);
    }

    #[test]
    fn each_fault_is_found() {
        let faulty = [
            function::<Ended>(),
            function::<Cut>(),
            function::<Short>(),
            function::<Mild>(),
        ];
        let counts = faulty.map(|function| differences(&function).0);
        assert!(counts.iter().all(|&count| count >= 10), "{counts:?}");
    }

    /// Lists, and each refusal that a record can meet.
    #[test]
    fn every_answer_comes_up() {
        let mut seen = BTreeMap::new();
        for case in FUNCTION.walked()..FUNCTION.count(CASES) {
            let record = bytes(&FUNCTION.input(3, case).0[0]);
            let row = record::lines(&record).err().map(|refusal| refusal.number);
            *seen.entry(row).or_insert(0) += 1;
        }
        let rows: Vec<_> = seen.keys().flatten().copied().collect();
        assert_eq!(rows, [3, 4, 5, 6, 7, 8, 9, 14, 15], "{seen:?}");
        assert!(seen[&None] >= 50, "{seen:?}");
    }

    /// Only the whole record and those cut at a point with five or more before
    /// it have a list; every broken start is refused with row 15.
    #[test]
    fn cut_and_broken_records_are_refused() {
        assert_eq!(good_record().len(), LENGTH);
        let lists = (0..FUNCTION.walked()).filter(|&case| {
            let record = bytes(&FUNCTION.input(3, case).0[0]);
            record::lines(&record).is_ok()
        });
        let cut = [5, 6, 7].map(|points| 255 + 67 * points);
        assert_eq!(lists.collect::<Vec<_>>(), cut);
    }

    /// 512 correspondences, all weak.
    #[test]
    fn the_longest_list_fits() {
        let mut case = faulty(&mut Source::new(1), 512, Fault::OnLine);
        case.damping = 0.0;
        let list = record::lines(&oracle::records::record(&case)).expect("a list");
        assert!(list.ends_with(" 512 n x\n"));
        assert_eq!(list.len(), 4057);
    }

    /// What is printed of a difference is a short record.
    #[test]
    fn a_record_shrinks() {
        let function = function::<Short>();
        let input = differences(&function).1.expect("a difference");
        let answer = (function.oracle)(&input);
        let difference = check(&function, &input, &answer).expect("differs");
        let (input, _) = shrink(&function, Expected::Oracle, input, difference);
        assert!(input.0[0].len() <= 255 + 5 * 67);
    }
}
