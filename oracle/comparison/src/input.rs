//! The arguments of one call, as patterns.

use std::fmt;

use crate::function::{Argument, Kind};

/// What room is filled with before a call: a finite number that no case has.
const FILL: u64 = 0xC0DE_C0DE_C0DE_C0DE;

/// The same for an entry of the kind; a byte of it is no text.
pub const fn fill(kind: Kind) -> u64 {
    FILL >> (64 - 8 * kind.width())
}

/// How many entries of a long argument are printed: numbers, and bytes, which
/// are enough for a run record of eleven points.
const SHOWN: usize = 32;
const SHOWN_BYTES: usize = 1024;

/// One list of entries for each argument. An entry is a pattern of 64 bits, of
/// sixteen, or a byte.
#[derive(Clone, Debug, PartialEq, Eq)]
pub struct Input(pub Vec<Vec<u64>>);

impl Input {
    /// Arguments of numbers.
    pub fn of(arguments: &[&[f64]]) -> Self {
        let patterns = |numbers: &&[f64]| numbers.iter().map(|x| x.to_bits()).collect();
        Self(arguments.iter().map(patterns).collect())
    }

    /// The same with an argument of whole numbers behind the first.
    pub fn with_counts(mut self, counts: &[u16]) -> Self {
        let entries = counts.iter().map(|&count| u64::from(count)).collect();
        self.0.insert(1, entries);
        self
    }

    /// Adds filled room for what is written and not there yet.
    pub fn add_rooms(&mut self, arguments: &[Argument]) {
        for argument in arguments.iter().skip(self.0.len()) {
            assert!(argument.is_written(), "{} is not given", argument.name);
            let length = argument.length.unwrap_or(0);
            self.0.push(vec![fill(argument.kind); length]);
        }
    }

    /// The pattern of an argument by value.
    pub fn word(&self, argument: usize) -> u64 {
        self.0[argument][0]
    }

    /// An argument by value.
    pub fn number(&self, argument: usize) -> f64 {
        f64::from_bits(self.word(argument))
    }

    /// An argument of `N` whole numbers of sixteen bits.
    pub fn counts<const N: usize>(&self, argument: usize) -> [u16; N] {
        std::array::from_fn(|index| self.0[argument][index] as u16)
    }

    /// An argument of any length.
    pub fn list(&self, argument: usize) -> Vec<f64> {
        self.0[argument]
            .iter()
            .map(|&entry| f64::from_bits(entry))
            .collect()
    }

    /// An argument of `N` numbers.
    pub fn numbers<const N: usize>(&self, argument: usize) -> [f64; N] {
        std::array::from_fn(|index| f64::from_bits(self.0[argument][index]))
    }
}

/// Bytes, one an entry.
pub fn bytes(entries: &[u64]) -> Vec<u8> {
    entries.iter().map(|&entry| entry as u8).collect()
}

/// Patterns with single spaces: two capital digits a byte. Written bytes are
/// text, and the fill behind it is left out.
pub fn digits(kind: Kind, entries: &[u64]) -> String {
    if kind == Kind::ByteRoom {
        let end = entries.iter().rposition(|&entry| entry != fill(kind));
        let text = bytes(&entries[..end.map_or(0, |last| last + 1)]);
        return format!("\"{}\"", text.escape_ascii());
    }
    let width = 2 * kind.width();
    let texts: Vec<_> = entries.iter().map(|e| format!("{e:0width$X}")).collect();
    texts.join(" ")
}

/// One argument a line, with its name.
pub struct Shown<'a>(pub &'a [Argument], pub &'a Input);

impl fmt::Display for Shown<'_> {
    fn fmt(&self, f: &mut fmt::Formatter<'_>) -> fmt::Result {
        for (argument, entries) in self.0.iter().zip(&self.1.0) {
            let usual = argument.length == Some(entries.len());
            if !argument.is_given() && usual {
                continue;
            }
            write!(f, "  {}", argument.name)?;
            if !usual {
                write!(f, " (length {})", entries.len())?;
            }
            if argument.is_given() && !entries.is_empty() {
                let most = match argument.kind.width() {
                    1 => SHOWN_BYTES,
                    _ => SHOWN,
                };
                let shown = &entries[..entries.len().min(most)];
                write!(f, " {}", digits(argument.kind, shown))?;
                f.write_str(if shown.len() < entries.len() {
                    " ..."
                } else {
                    ""
                })?;
            }
            writeln!(f)?;
        }
        Ok(())
    }
}
