//! Text files of cases with the oracle's answers, one line each: the input's
//! patterns, `=`, and the result's patterns or the refusal. A number that is
//! made of a pattern is written as its exact value instead.

use std::collections::HashSet;
use std::fs;
use std::path::Path;

use oracle::flat;

use crate::function::{Answer, Argument, Function, Kind};
use crate::input::{Input, digits};
use crate::run::text;
use crate::tally::Tally;

/// So many cases are looked through before a sample is given up.
const MOST: u64 = 1_000_000;

/// From this case on, other results may stand for those that the rule decides,
/// since some functions have only one such input.
const PATIENCE: u64 = 20_000;

/// A file is shorter than this, so that a reader's room can be.
const BYTES: u64 = 300_000;

/// What a line shows.
#[derive(Clone, Copy, PartialEq, Eq)]
enum Class {
    Result,
    /// A result that the rule for unlike zeros decides.
    Ruled,
    Row(u8),
}

/// How many lines of each class are still wanted.
struct Wanted(Vec<(Class, u64)>);

impl Wanted {
    /// So many lines show results, and as many each row; of the results a sixth
    /// shows the rule for zeros, if it can be seen. Fewer where lines are long.
    fn new(function: &Function, lines: u64) -> Self {
        let lines = lines.min(most(function));
        let rows = function.rows.iter();
        let mut classes: Vec<_> = rows.map(|&row| (Class::Row(row), lines)).collect();
        let ruled = function.plain.map_or(0, |_| lines / 6);
        classes.push((Class::Ruled, ruled));
        classes.push((Class::Result, lines - ruled));
        Self(classes)
    }

    /// True if a line of this class is wanted; then one less is.
    fn take(&mut self, class: Class) -> bool {
        match self.0.iter_mut().find(|wanted| wanted.0 == class) {
            Some((_, left)) if *left > 0 => {
                *left -= 1;
                true
            }
            _ => false,
        }
    }

    /// Wants results in place of those that the rule decides.
    fn relent(&mut self) {
        let mut left = 0;
        for (class, count) in &mut self.0 {
            match class {
                Class::Ruled => left = std::mem::take(count),
                Class::Result => *count += left,
                Class::Row(_) => {}
            }
        }
    }

    fn left(&self) -> u64 {
        self.0.iter().map(|wanted| wanted.1).sum()
    }
}

/// How many lines of each class a file has room for.
fn most(function: &Function) -> u64 {
    let entries = |argument: &Argument| argument.length.unwrap_or(0) as u64;
    let bytes = |argument: &Argument| {
        let times = u64::from(argument.is_given()) + u64::from(argument.is_written());
        times * entries(argument) * (2 * argument.kind.width() as u64 + 1)
    };
    let line = 2 + function.arguments.iter().map(bytes).sum::<u64>();
    BYTES / line / (1 + function.rows.len() as u64)
}

/// Writes NAME.txt and prints what it holds.
pub fn write(function: &Function, seed: u64, lines: u64, folder: &Path) -> Result<(), String> {
    let (lines, tally) = collect(function, seed, lines)?;
    let path = folder.join(function.name).with_extension("txt");
    fs::create_dir_all(folder)
        .and_then(|()| fs::write(&path, lines.concat()))
        .map_err(|error| format!("cannot write {}: {error}", path.display()))?;
    println!("{}.txt: {tally}", function.name);
    Ok(())
}

/// The lines, each different from all others, and what they show.
fn collect(function: &Function, seed: u64, lines: u64) -> Result<(Vec<String>, Tally), String> {
    let mut wanted = Wanted::new(function, lines);
    let (mut chosen, mut seen) = (Vec::new(), HashSet::new());
    let mut tally = Tally::default();
    for case in 0..MOST {
        if wanted.left() == 0 {
            return Ok((chosen, tally));
        }
        if case == PATIENCE {
            wanted.relent();
        }
        let input = function.input(seed, function.walked() + case);
        let answer = (function.oracle)(&input);
        let line = line(function, &input, &answer);
        let ruled = function.is_ruled(&input, &answer);
        if !seen.contains(&line) && wanted.take(class(&answer, ruled)) {
            tally.count(&answer);
            tally.ruled += u64::from(ruled);
            seen.insert(line.clone());
            chosen.push(line);
        }
    }
    let (name, left) = (function.name, wanted.left());
    Err(format!(
        "{name}: {left} of {lines} lines not found in {MOST} cases"
    ))
}

fn class(answer: &Answer, ruled: bool) -> Class {
    match answer {
        Answer::Refused(refusal) => Class::Row(refusal.number),
        Answer::Result(_) if ruled => Class::Ruled,
        Answer::Result(_) => Class::Result,
    }
}

fn line(function: &Function, input: &Input, answer: &Answer) -> String {
    let given = function.arguments.iter().zip(&input.0);
    let mut words: Vec<_> = given
        .filter(|(argument, _)| argument.is_given())
        .map(|(argument, entries)| digits(argument.kind, entries))
        .collect();
    words.push(String::from("="));
    words.push(match made_of_a_word(function, answer) {
        Some(number) => format!("value {}", exact(number)),
        None => text(function, &one_nan(function, answer)),
    });
    words.join(" ") + "\n"
}

/// The number that the function makes of a word, if it is one that does: of its
/// pattern, which is the word again, a reader would learn nothing.
fn made_of_a_word(function: &Function, answer: &Answer) -> Option<f64> {
    let kinds: Vec<_> = function.arguments.iter().map(|a| a.kind).collect();
    match answer {
        Answer::Result(lists) if kinds == [Kind::Word, Kind::Returned] => {
            Some(f64::from_bits(lists[0][0]))
        }
        _ => None,
    }
}

/// A number by its value, which arithmetic alone finds: `nan`, or a sign, and
/// behind it `inf` or a whole number below 2^53 and the power of two that it is
/// multiplied by.
fn exact(number: f64) -> String {
    if number.is_nan() {
        return String::from("nan");
    }
    let sign = if number.is_sign_negative() { '-' } else { '+' };
    let (mut size, mut power) = (number.abs(), 0);
    if size.is_infinite() {
        return format!("{sign} inf");
    }
    while size.fract() != 0.0 {
        size *= 2.0;
        power -= 1;
    }
    while size >= 9_007_199_254_740_992.0 {
        size /= 2.0;
        power += 1;
    }
    format!("{sign} {} {power}", size as u64)
}

/// The answer with one pattern for every NaN.
fn one_nan(function: &Function, answer: &Answer) -> Answer {
    let Answer::Result(lists) = answer else {
        return answer.clone();
    };
    let mut lists = lists.clone();
    let written = function.arguments.iter().filter(|a| a.is_written());
    for (argument, entries) in written.zip(&mut lists) {
        if argument.kind.is_numeric() {
            entries
                .iter_mut()
                .for_each(|e| *e = flat::bits(f64::from_bits(*e)));
        }
    }
    Answer::Result(lists)
}

#[cfg(test)]
mod tests {
    use super::*;
    use crate::functions::{ALL, sampled};

    #[test]
    fn a_sample_has_each_answer_and_no_line_twice() {
        for function in ALL.iter().filter_map(|function| sampled(function)) {
            let (lines, tally) = collect(function, 1, 40).expect("a full sample");
            let all = 40.min(most(function)) as usize * (1 + function.rows.len());
            assert!((lines.concat().len() as u64) < BYTES);
            assert_eq!((lines.len(), tally.cases()), (all, all as u64));
            assert!(tally.never_seen(function).is_empty(), "{}", function.name);
            let different: HashSet<_> = lines.iter().collect();
            assert_eq!(different.len(), lines.len());
        }
    }

    /// Capital patterns and single spaces; as many, and as wide, as the arguments
    /// have; every NaN of an answer in one pattern.
    #[test]
    fn a_line_has_the_form() {
        for function in ALL.iter().filter_map(|function| sampled(function)) {
            let (lines, _) = collect(function, 2, 40).expect("a full sample");
            for line in &lines {
                let (given, answer) = line.trim_end().split_once(" = ").expect("one sign");
                let widths = |chosen: fn(&Argument) -> bool| {
                    let arguments = function.arguments.iter().filter(|a| chosen(a));
                    let widths = arguments.flat_map(|a| {
                        std::iter::repeat_n(2 * a.kind.width(), a.length.unwrap_or(0))
                    });
                    widths.collect::<Vec<_>>()
                };
                patterns(given, &widths(Argument::is_given));
                if let Some(refusal) = answer.strip_prefix("refused ") {
                    assert_eq!(refusal.split(' ').count(), 3);
                    continue;
                }
                if answer.starts_with("value ") {
                    assert_eq!(function.name, "from_bits");
                    continue;
                }
                let results = patterns(answer, &widths(Argument::is_written));
                let nan = |bits: &u64| f64::from_bits(*bits).is_nan();
                assert!(
                    results
                        .iter()
                        .filter(|bits| nan(bits))
                        .all(|bits| *bits == 0x7FF8 << 48)
                );
            }
        }
    }

    #[test]
    fn an_exact_value_is_the_number() {
        let texts = [
            1.0,
            -1.5,
            5e-324,
            f64::MAX,
            0.0,
            -0.0,
            f64::NAN,
            -f64::INFINITY,
        ]
        .map(exact);
        let expected = [
            "+ 1 0",
            "- 3 -1",
            "+ 1 -1074",
            "+ 9007199254740991 971",
            "+ 0 0",
            "- 0 0",
            "nan",
            "- inf",
        ];
        assert_eq!(texts, expected);
    }

    /// The words of a text, which have these widths.
    fn patterns(text: &str, widths: &[usize]) -> Vec<u64> {
        let words: Vec<_> = text.split(' ').collect();
        let found: Vec<_> = words.iter().map(|word| word.len()).collect();
        assert_eq!(
            (found.as_slice(), text),
            (widths, text.to_uppercase().as_str())
        );
        let read = |word: &&str| u64::from_str_radix(word, 16).expect("digits");
        words.iter().map(read).collect()
    }
}
