//! The run record's list: the sample of docs/SPECIFICATION.md, the stored samples, every cut and
//! every broken field of a good record, and the original's own walk beside it.

use std::collections::{BTreeMap, BTreeSet};
use std::fs;
use std::path::{Path, PathBuf};
use std::process::{Command, Output};

use oracle::generate::{Case, Source, any_problem, problem};
use oracle::optimizer::{Refusal, reduced_system, whole_step};
use oracle::record::{LONGEST, lines, list};
use oracle::records::{any_record, record, starts};
use oracle::refused::refused;

fn folder() -> PathBuf {
    Path::new(env!("CARGO_MANIFEST_DIR")).join("..")
}

fn run_tool(command: &str, file: &Path) -> Output {
    Command::new(folder().join("tools/record"))
        .arg(command)
        .arg(file)
        .output()
        .expect("python3 runs tools/record")
}

/// What tools/record makes of a file.
fn tool(command: &str, file: &Path) -> Vec<u8> {
    let output = run_tool(command, file);
    assert!(output.status.success(), "{}", file.display());
    output.stdout
}

fn text(record: &[u8]) -> String {
    String::from_utf8(list(record)).expect("ASCII")
}

fn sample(name: &str) -> Vec<u8> {
    tool("pack", &folder().join("samples").join(name))
}

/// A sound plate of so many dots at damping zero.
fn good(points: usize) -> Case {
    let mut case = problem(&mut Source::new(1), points);
    case.damping = 0.0;
    case
}

#[test]
fn the_sample() {
    let expected = "run 5 0000000000000000\np 0 n\np 1 g\np 2 g\np 3 g\np 4 g\n\
                    sum 3FE0000000000000 3FF0000000000000 1 n x\n";
    assert_eq!(text(&sample("sample.plate")), expected);
}

/// Every stored list is given, and together they show every answer there is.
#[test]
fn samples() {
    let mut seen = BTreeSet::new();
    for entry in fs::read_dir(folder().join("samples")).expect("a folder") {
        let path = entry.expect("an entry").path();
        let record = match path.extension().and_then(|end| end.to_str()) {
            Some("plate") => tool("pack", &path),
            Some("record") => fs::read(&path).expect("a record"),
            _ => continue,
        };
        let expected = fs::read_to_string(path.with_extension("list")).expect("a list");
        assert_eq!(text(&record), expected, "{}", path.display());
        seen.extend(expected.lines().map(shown));
    }
    let letters = ["p n", "p w", "p g", "p f", "run"];
    let sums = ["sum y u", "sum y x", "sum n x"];
    let rows = [3, 4, 5, 6, 7, 8, 9, 15].map(|row| format!("refused {row}"));
    let all = letters.into_iter().chain(sums).map(String::from);
    assert_eq!(seen, all.chain(rows).collect());
}

/// What a line shows: its first word with row, letter, or validity and verdict.
fn shown(line: &str) -> String {
    let words: Vec<_> = line.split(' ').collect();
    match words[..] {
        ["p", _, letter] => format!("p {letter}"),
        ["sum", .., validity, verdict] => format!("sum {validity} {verdict}"),
        ["refused", row, ..] => format!("refused {row}"),
        _ => words[0].to_string(),
    }
}

/// Cut within a field, or in front of field 5: row 15 where the last field
/// begins. Cut behind it at a boundary: a plate with fewer dots.
#[test]
fn every_prefix() {
    let record = record(&good(7));
    assert_eq!(record.len(), 255 + 7 * 67);
    let starts = starts(8);
    for length in 0..=record.len() {
        let begins = starts.iter().rfind(|&&start| start <= length);
        let begins = *begins.expect("a field begins at 0");
        let given = text(&record[..length]);
        if length < 255 || begins != length {
            assert_eq!(given, format!("refused 15 0 {begins}\n"));
            continue;
        }
        match (length - 255) / 67 {
            0..5 => assert_eq!(given, "refused 7 0 0\n"),
            n => assert!(given.starts_with(&format!("run {n} ")), "{given}"),
        }
    }
}

/// Any other tag or length breaks the field, wherever the record ends.
#[test]
fn every_start_of_a_field() {
    let record = record(&good(6));
    for start in starts(6) {
        for place in start..start + 3 {
            for byte in 0..=u8::MAX {
                let mut broken = record.clone();
                broken[place] = byte;
                let same = byte == record[place];
                let expected = format!("refused 15 0 {start}\n");
                assert_eq!(text(&broken) == expected, !same);
            }
        }
    }
}

/// A broken field counts before any check of the numbers.
#[test]
fn row_15_comes_before_the_rest() {
    let mut case = good(4);
    case.damping = -1.0;
    let mut bytes = record(&case);
    assert_eq!(text(&bytes), "refused 3 0 0\n");
    bytes.push(6);
    assert_eq!(text(&bytes), "refused 15 0 523\n");
}

#[test]
fn row_14_comes_before_15() {
    assert_eq!(text(&[0; LONGEST]), "refused 15 0 0\n");
    assert_eq!(text(&[0; LONGEST + 1]), "refused 14 0 0\n");
    let mut bytes = record(&good(512));
    assert_eq!(bytes.len(), LONGEST);
    assert!(text(&bytes).starts_with("run 512 "));
    assert_eq!(text(&bytes[..LONGEST - 1]), "refused 15 0 34492\n");
    bytes.push(6);
    assert_eq!(text(&bytes), "refused 14 0 0\n");
    assert_eq!(text(&record(&good(513))), "refused 14 0 0\n");
}

/// −0 counts as zero and is printed as given.
#[test]
fn minus_zero() {
    let case = Case {
        damping: -0.0,
        ..good(5)
    };
    let plus = text(&record(&good(5)));
    assert!(plus.contains(" g\n"));
    let minus = plus.replacen("0000000000000000", "8000000000000000", 1);
    assert_eq!(text(&record(&case)), minus);
}

/// The list beside the original's own walk over the same plate.
fn hold(case: &Case) {
    let whole = whole_step(&case.problem(), 3 * case.count()).err();
    let whole = whole.filter(|refusal| refusal.number <= 9);
    let given = lines(&record(case));
    assert_eq!(given.as_ref().err(), whole.as_ref());
    let Ok(given) = given else { return };
    let system = reduced_system(&case.problem()).expect("all correspondences can be projected");
    let (weak, valid) = (system.weak_point_count, system.is_valid());
    let last = format!(
        "sum {:016X} {:016X} {weak} {} {}",
        system.cost.to_bits(),
        system.squared_residual.to_bits(),
        if valid { 'y' } else { 'n' },
        if valid && weak == 0 { 'u' } else { 'x' },
    );
    assert_eq!(given.lines().last(), Some(last.as_str()));
    let zero = case.damping == 0.0;
    let count = |ends: [&str; 2]| {
        let ends_so =
            |line: &&str| line.starts_with("p ") && ends.iter().any(|e| line.ends_with(e));
        given.lines().filter(ends_so).count()
    };
    assert_eq!(
        count([" n", " w"]),
        if zero { weak } else { count([" n"; 2]) }
    );
    assert!(zero || count([" g", " w"]) == 0);
    assert!(!valid || count([" n"; 2]) == 0);
    assert_eq!(given.lines().count(), case.count() + 2);
}

#[test]
fn seeded_problems() {
    let mut source = Source::new(9);
    for _ in 0..4000 {
        let n = source.below(12);
        hold(&any_problem(&mut source, n));
    }
}

#[test]
fn the_first_of_two_rows_is_given() {
    let mut source = Source::new(10);
    for first in 3..=9 {
        for second in first..=9 {
            for _ in 0..50 {
                let case = refused(&mut source, &[first, second]).expect("no row 2");
                hold(&case);
                let number = lines(&record(&case)).map_err(|refusal| refusal.number);
                assert_eq!(number, Err(first));
            }
        }
    }
}

/// Lists, and each row that a record can meet, are at least a twentieth of the
/// seeded records; each letter is in a fiftieth of them; row 15 breaks every one
/// of the first fields.
#[test]
fn seeded_records() {
    let mut source = Source::new(11);
    let (mut counts, mut broken) = (BTreeMap::new(), BTreeSet::new());
    let mut letters = BTreeMap::new();
    for _ in 0..4000 {
        let number = match lines(&any_record(&mut source)) {
            Ok(list) => {
                let seen: BTreeSet<_> = list.lines().map(shown).collect();
                for kind in seen {
                    *letters.entry(kind).or_insert(0) += 1;
                }
                0
            }
            Err(Refusal { number, index, .. }) => {
                broken.extend((number == 15).then_some(index));
                number
            }
        };
        *counts.entry(number).or_insert(0) += 1;
    }
    let rows: Vec<_> = counts.keys().copied().collect();
    assert_eq!(rows, [0, 3, 4, 5, 6, 7, 8, 9, 14, 15]);
    assert!(counts.values().all(|&count| count >= 200), "{counts:?}");
    assert_eq!(letters.len(), 8, "{letters:?}");
    assert!(letters.values().all(|&count| count >= 80), "{letters:?}");
    assert!(starts(3).iter().all(|start| broken.contains(start)));
}

/// tools/record turns every record in form into text and back, byte for byte.
#[test]
fn text_and_back() {
    let mut source = Source::new(12);
    for number in [0, 6, 512] {
        let mut case = any_problem(&mut source, number);
        case.places().into_iter().for_each(|v| *v = source.mixed());
        let bytes = record(&case);
        let text = tool("unpack", &file(&format!("{number}.record"), &bytes));
        let problem = file(&format!("{number}.plate"), &text);
        assert!(tool("pack", &problem) == bytes, "{}", problem.display());
    }
}

/// A bad line, or the byte where a broken field begins, is named; status 2.
#[test]
fn bad_files_are_named() {
    let bytes = record(&good(5));
    let text = tool("unpack", &file("good.record", &bytes));
    let good = String::from_utf8(text).expect("text");
    let texts = [
        (
            good.replace("camera2", "camera3"),
            "2: expected `camera2`, found `camera3`",
        ),
        (
            good.replace("damping 0.0", "damping"),
            "expected 1 number after `damping`, found 0",
        ),
        (
            good.replace("damping 0.0", "# one\ndamping nan"),
            ":8: expected a finite decimal",
        ),
        (
            good.replacen("dot", "spot", 1),
            "8: expected `dot`, found `spot`",
        ),
    ];
    for (number, (text, message)) in texts.iter().enumerate() {
        let path = file(&format!("bad-{number}.plate"), text.as_bytes());
        refuses("pack", &path, message);
    }
    refuses(
        "unpack",
        &file("cut.record", &bytes[..400]),
        "byte 389: expected",
    );
    refuses(
        "unpack",
        &file("short.record", &bytes[..86]),
        "byte 86: expected",
    );
}

/// A file for a test.
fn file(name: &str, bytes: &[u8]) -> PathBuf {
    let path = Path::new(env!("CARGO_TARGET_TMPDIR")).join(name);
    fs::write(&path, bytes).expect("written");
    path
}

fn refuses(command: &str, file: &Path, message: &str) {
    let output = run_tool(command, file);
    let given = String::from_utf8(output.stderr).expect("text");
    assert!(given.starts_with(&*file.to_string_lossy()), "{given}");
    assert!(given.contains(message), "{given}");
    assert_eq!((output.status.code(), output.stdout), (Some(2), Vec::new()));
}
