//! The smallest input, by greedy steps, that still shows a difference.

use std::ops::Range;

use crate::check::{Difference, Expected, check};
use crate::function::{Function, Kind};
use crate::input::Input;

const SIGN: u64 = 1 << 63;
const MANTISSA: u64 = (1 << 52) - 1;
const ONE: u64 = 1023 << 52;
const TWO: u64 = 1024 << 52;
const NAN: u64 = 0x7FF8 << 48;

/// The fields of a run record before its points, and the bytes of a point.
const HEADER: usize = 255;
const POINT: usize = 67;

/// So many entries are tried, over all inputs, before what was found has to do.
const WORK: usize = 200_000_000;

/// Takes simpler entries for as long as the difference stays.
pub fn shrink(
    function: &Function,
    expected: Expected,
    input: Input,
    difference: Difference,
) -> (Input, Difference) {
    let (mut input, mut difference) = (input, difference);
    let mut work = WORK;
    while let Some(smaller) = step(function, expected, &input, &difference, &mut work) {
        (input, difference) = smaller;
    }
    (input, difference)
}

/// The first simpler input that shows a difference of the same kind; none once
/// the work is used up.
fn step(
    function: &Function,
    expected: Expected,
    input: &Input,
    difference: &Difference,
    work: &mut usize,
) -> Option<(Input, Difference)> {
    for (place, argument) in function.arguments.iter().enumerate() {
        if !argument.is_given() {
            continue;
        }
        for entries in simpler_lists(argument.kind, &input.0[place]) {
            *work = work.checked_sub(entries.len())?;
            let mut trial = input.clone();
            trial.0[place] = entries;
            let answer = expected.answer(function, &trial);
            match check(function, &trial, &answer) {
                Some(found) if found.alike(difference) => return Some((trial, found)),
                _ => {}
            }
        }
    }
    None
}

/// Shorter or simpler lists in the place of this one, one after the other.
fn simpler_lists(kind: Kind, entries: &[u64]) -> impl Iterator<Item = Vec<u64>> {
    let shorter = spans(kind, entries.len())
        .into_iter()
        .map(|span| [&entries[..span.start], &entries[span.end..]].concat());
    let together = simpler_together(kind, entries);
    let alone = (0..entries.len()).flat_map(move |index| {
        simpler(kind, entries[index]).into_iter().map(move |entry| {
            let mut entries = entries.to_vec();
            entries[index] = entry;
            entries
        })
    });
    shorter.chain(together).chain(alone)
}

/// What can be left out of lent bytes: points of a run record, many at once
/// first, then the second half or the last byte.
fn spans(kind: Kind, length: usize) -> Vec<Range<usize>> {
    if kind != Kind::Bytes || length == 0 {
        return Vec::new();
    }
    let mut spans = Vec::new();
    for points in (0..10).rev().map(|power| POINT << power) {
        let starts = (HEADER..length).step_by(points);
        let ends = starts.map(|start| start..start + points);
        spans.extend(ends.filter(|span| span.end <= length));
    }
    spans.extend([length / 2..length, length - 1..length]);
    spans
}

/// A whole argument made simpler, where its entries only count together: all
/// zero, all without mantissa, or all scaled so that the largest is near one.
fn simpler_together(kind: Kind, entries: &[u64]) -> Vec<Vec<u64>> {
    if kind.width() < 8 {
        return Vec::new();
    }
    let total = |entries: &[u64]| -> u64 { entries.iter().map(|&e| cost(kind, e)).sum() };
    let normal = |entry: &u64| (1..0x7FF).contains(&(entry >> 52 & 0x7FF));
    let all = |change: &dyn Fn(u64) -> u64| -> Vec<u64> {
        let changed = |&entry| if normal(&entry) { change(entry) } else { entry };
        entries.iter().map(changed).collect()
    };
    let exponents = entries
        .iter()
        .filter(|entry| normal(entry))
        .map(|entry| entry >> 52 & 0x7FF);
    let largest = exponents.max().unwrap_or(1023);
    let shifted = |entry: u64| {
        let exponent = (entry >> 52 & 0x7FF) + 1023;
        let exponent = exponent.saturating_sub(largest).max(1);
        entry & (SIGN | MANTISSA) | exponent << 52
    };
    let mut lists = vec![vec![0; entries.len()]];
    lists.extend([all(&|entry| entry & !MANTISSA), all(&shifted)]);
    lists.retain(|list| total(list) < total(entries));
    lists
}

/// Entries that cost less than this one, the simplest first.
fn simpler(kind: Kind, entry: u64) -> Vec<u64> {
    let limit = cost(kind, entry);
    let mut entries = match kind {
        kind if kind.width() < 8 => vec![0, 1, entry / 2, entry.saturating_sub(1)],
        _ => simpler_numbers(entry),
    };
    entries.retain(|&entry| cost(kind, entry) < limit);
    entries.sort_by_key(|&entry| (cost(kind, entry), entry));
    entries.dedup();
    entries
}

/// Zeros, ones, two, and the entry itself with less sign, mantissa or exponent.
fn simpler_numbers(entry: u64) -> Vec<u64> {
    let exponent = entry & !SIGN & !MANTISSA;
    let halfway =
        |part: i64| (ONE as i64 + (exponent as i64 - ONE as i64) / part) as u64 & !MANTISSA;
    let next = if exponent > ONE {
        exponent - (1 << 52)
    } else {
        exponent + (1 << 52)
    };
    let kept = (entry & MANTISSA).trailing_zeros().min(52);
    let half = MANTISSA << (52 - (52 - kept) / 2);
    let mut entries = vec![0, ONE, SIGN, SIGN | ONE, TWO, NAN, entry & !SIGN];
    entries.extend([
        entry & !MANTISSA,
        entry & (SIGN | exponent | half & MANTISSA),
    ]);
    entries.push(entry & entry.wrapping_sub(u64::from(entry & MANTISSA != 0)));
    let with_exponent = |exponent: u64| entry & (SIGN | MANTISSA) | exponent;
    entries.extend([2, 4, 16].map(|part| with_exponent(halfway(part))));
    entries.push(with_exponent(next));
    entries
}

/// How far a pattern is from being easy to read; what is not finite, farthest.
fn cost(kind: Kind, entry: u64) -> u64 {
    if kind.width() < 8 {
        return entry;
    }
    let size = entry & !SIGN;
    let sign = 2 * (entry >> 63);
    let exponent = (size >> 52).abs_diff(1023);
    let digits = u64::from(52 - (size & MANTISSA).trailing_zeros().min(52));
    match size {
        0 => sign,
        ONE => 1 + sign,
        size if size > 0x7FF << 52 => 6000 + sign + digits,
        size if size == 0x7FF << 52 => 5000 + sign,
        _ => 4 + sign + exponent + 2 * digits,
    }
}

#[cfg(test)]
mod tests {
    use super::*;
    use crate::function::{Answer, lent, room};

    /// Two entries count: the second above 3, the third not a number.
    const FAULTY: Function = Function {
        name: "faulty",
        arguments: &[lent("list", 4), room(1)],
        rows: &[],
        walk: None,
        generate: |source| Input::of(&[&source.numbers::<4>()]),
        port: |lent, rooms| {
            let list = lent.numbers(0);
            rooms.numbers[0][0] = f64::from(u8::from(list[1] > 3.0 && list[2].is_nan()));
            0
        },
        oracle: |_| Answer::numbers(&[0.0]),
        plain: None,
    };

    #[test]
    fn what_does_not_count_becomes_zero() {
        let mut input = Input::of(&[&[-7.25, 1.234e100, -f64::NAN, f64::INFINITY]]);
        input.add_rooms(FAULTY.arguments);
        let answer = (FAULTY.oracle)(&input);
        let difference = check(&FAULTY, &input, &answer).expect("differs");
        let (input, _) = shrink(&FAULTY, Expected::Oracle, input, difference);
        let small = Input::of(&[&[0.0, 4.0, f64::NAN, 0.0]]);
        assert_eq!(input.0[0], small.0[0]);
    }

    #[test]
    fn a_simpler_entry_costs_less() {
        for entry in [0, 1, ONE, NAN, SIGN, u64::MAX, 0x3FF6_A09E_667F_3BCD] {
            let below = cost(Kind::Number, entry);
            assert!(
                simpler(Kind::Number, entry)
                    .iter()
                    .all(|&e| cost(Kind::Number, e) < below)
            );
        }
        assert_eq!(simpler(Kind::Bytes, 1), [0]);
    }
}
