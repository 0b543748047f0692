//! What the driver knows of a function: its arguments, inputs for it, the
//! port's call and the oracle's answer.

use oracle::flat;
use oracle::generate::Source;
use pixel_step::Refusal;

use crate::input::Input;
use crate::memory::{Lent, Rooms};

/// How an argument or an answer is handed over.
#[derive(Clone, Copy, Debug, PartialEq, Eq)]
pub enum Kind {
    /// A number by value.
    Number,
    /// 64 bits by value.
    Word,
    /// Lent numbers.
    Numbers,
    /// Lent bytes, one an entry of the input.
    Bytes,
    /// Lent whole numbers of sixteen bits, one an entry of the input.
    Counts,
    /// Lent numbers that the call writes.
    Room,
    /// Lent bytes that the call writes, one an entry of the input.
    ByteRoom,
    /// Lent whole numbers of sixteen bits that the call writes.
    CountRoom,
    /// Lent numbers that the call reads and writes.
    State,
    /// Lent whole numbers of sixteen bits that the call reads and writes.
    CountState,
    /// A number that the call returns.
    Returned,
    /// A whole number that the call returns; compared with all its bits.
    ReturnedWord,
}

impl Kind {
    /// How many bytes an entry has in memory.
    pub const fn width(self) -> usize {
        match self {
            Self::Bytes | Self::ByteRoom => 1,
            Self::Counts | Self::CountRoom | Self::CountState => 2,
            _ => 8,
        }
    }

    /// Entries are numbers, so that any NaN stands for any other.
    pub fn is_numeric(self) -> bool {
        self.width() == 8 && !matches!(self, Self::Word | Self::ReturnedWord)
    }
}

/// One argument, or the value that comes back.
#[derive(Clone, Copy, Debug)]
pub struct Argument {
    pub name: &'static str,
    pub kind: Kind,
    /// None if any length may come: the oracle then judges the lengths.
    pub length: Option<usize>,
}

impl Argument {
    const fn new(name: &'static str, kind: Kind, length: Option<usize>) -> Self {
        Self { name, kind, length }
    }

    /// The call puts its result there.
    pub fn is_written(&self) -> bool {
        let room = matches!(self.kind, Kind::Room | Kind::CountRoom | Kind::ByteRoom);
        let state = matches!(self.kind, Kind::State | Kind::CountState);
        room || state || matches!(self.kind, Kind::Returned | Kind::ReturnedWord)
    }

    /// The call reads it.
    pub fn is_given(&self) -> bool {
        !self.is_written() || matches!(self.kind, Kind::State | Kind::CountState)
    }

    /// It is lent with a length that can be wrong.
    pub fn has_one_length(&self) -> bool {
        let by_value = matches!(self.kind, Kind::Number | Kind::Word);
        let returned = matches!(self.kind, Kind::Returned | Kind::ReturnedWord);
        !by_value && !returned && self.length.is_some()
    }
}

/// A number by value.
pub const fn number(name: &'static str) -> Argument {
    Argument::new(name, Kind::Number, Some(1))
}

/// 64 bits by value.
pub const fn word(name: &'static str) -> Argument {
    Argument::new(name, Kind::Word, Some(1))
}

/// So many lent numbers.
pub const fn lent(name: &'static str, length: usize) -> Argument {
    Argument::new(name, Kind::Numbers, Some(length))
}

/// So many lent whole numbers of sixteen bits.
pub const fn counts(name: &'static str, length: usize) -> Argument {
    Argument::new(name, Kind::Counts, Some(length))
}

/// So many numbers that the call changes in place.
pub const fn state(name: &'static str, length: usize) -> Argument {
    Argument::new(name, Kind::State, Some(length))
}

/// So many whole numbers of sixteen bits that the call changes in place.
pub const fn count_state(name: &'static str, length: usize) -> Argument {
    Argument::new(name, Kind::CountState, Some(length))
}

/// Room for so many whole numbers of sixteen bits.
pub const fn count_room(length: usize) -> Argument {
    Argument::new("out", Kind::CountRoom, Some(length))
}

/// Room for so many numbers.
pub const fn room(length: usize) -> Argument {
    Argument::new("out", Kind::Room, Some(length))
}

/// An argument of any length.
pub const fn open(name: &'static str, kind: Kind) -> Argument {
    Argument::new(name, kind, None)
}

/// A returned number.
pub const fn returned() -> Argument {
    Argument::new("result", Kind::Returned, Some(1))
}

/// A returned whole number.
pub const fn returned_word() -> Argument {
    Argument::new("result", Kind::ReturnedWord, Some(1))
}

/// What a call answers: the patterns of all that it writes, in the order of
/// the arguments, or a refusal.
#[derive(Clone, Debug, PartialEq, Eq)]
pub enum Answer {
    Result(Vec<Vec<u64>>),
    Refused(Refusal),
}

impl Answer {
    /// A result of these numbers, in the one room.
    pub fn numbers(numbers: &[f64]) -> Self {
        Self::Result(vec![numbers.iter().map(|x| x.to_bits()).collect()])
    }

    /// A result of one whole number.
    pub fn word(word: u64) -> Self {
        Self::Result(vec![vec![word]])
    }

    /// A result of these numbers and these whole numbers, each in its place.
    pub fn numbers_and_counts(numbers: &[f64], counts: &[u16]) -> Self {
        let counts = counts.iter().map(|&count| u64::from(count)).collect();
        Self::Result(vec![numbers.iter().map(|x| x.to_bits()).collect(), counts])
    }

    /// A refusal by a row alone.
    pub const fn row(number: u8) -> Self {
        Self::Refused(Refusal {
            number,
            view: 0,
            index: 0,
        })
    }

    /// The numbers, or a refusal by the row where there are none.
    pub fn or_row<const N: usize>(numbers: Option<[f64; N]>, number: u8) -> Self {
        numbers.map_or(Self::row(number), |numbers| Self::numbers(&numbers))
    }

    /// The same in every figure, or the same refusal.
    pub fn same(&self, other: &Self, arguments: &[Argument]) -> bool {
        match (self, other) {
            (Self::Refused(left), Self::Refused(right)) => left == right,
            (Self::Result(left), Self::Result(right)) => {
                let kinds = arguments.iter().filter(|a| a.is_written()).map(|a| a.kind);
                left.len() == right.len()
                    && kinds.zip(left.iter().zip(right)).all(|(kind, (l, r))| {
                        l.len() == r.len()
                            && l.iter().zip(r).all(|(&l, &r)| same_figure(kind, l, r))
                    })
            }
            _ => false,
        }
    }
}

/// Equal bits, or two NaN where the figures are numbers.
fn same_figure(kind: Kind, left: u64, right: u64) -> bool {
    left == right || kind.is_numeric() && flat::same(f64::from_bits(left), f64::from_bits(right))
}

/// Inputs that each run takes before the seeded ones.
#[derive(Clone, Copy)]
pub struct Walk {
    pub count: u64,
    pub input: fn(u64, &mut Source) -> Input,
}

/// One function of the port. `generate` gives all arguments but those that are
/// written; the driver adds these, unless their length is open.
#[derive(Clone, Copy)]
pub struct Function {
    pub name: &'static str,
    pub arguments: &'static [Argument],
    /// The rows that it refuses by; row 1 for lengths need not be named.
    pub rows: &'static [u8],
    pub walk: Option<Walk>,
    pub generate: fn(&mut Source) -> Input,
    /// The port's call: 0, or a refusal's code.
    pub port: fn(&Lent<'_>, &mut Rooms<'_>) -> u64,
    /// The original's answer, with the rule for unlike zeros (docs/SPECIFICATION.md,
    /// "Numbers"): `max` gives +0, and `min` gives −0.
    pub oracle: fn(&Input) -> Answer,
    /// The original's answer as it ran, where that rule can make a difference.
    pub plain: Option<fn(&Input) -> Answer>,
}

impl Function {
    /// How many cases a run of so many seeded ones has, wrong lengths aside.
    pub fn count(&self, cases: u64) -> u64 {
        self.walked() + cases
    }

    /// Some argument may have any length.
    pub fn is_open(&self) -> bool {
        self.arguments
            .iter()
            .any(|argument| argument.length.is_none())
    }

    /// How many cases come before the seeded ones.
    pub fn walked(&self) -> u64 {
        self.walk.map_or(0, |walk| walk.count)
    }

    /// The input of a case. Seed, name and case alone decide it.
    pub fn input(&self, seed: u64, case: u64) -> Input {
        let mut source = self.source(seed, case);
        let mut input = match self.walk {
            Some(walk) if case < walk.count => (walk.input)(case, &mut source),
            _ => (self.generate)(&mut source),
        };
        input.add_rooms(self.arguments);
        input
    }

    /// The numbers that a case is made of.
    fn source(&self, seed: u64, case: u64) -> Source {
        let name = self
            .name
            .bytes()
            .fold(0xCBF2_9CE4_8422_2325, |hash: u64, byte| {
                (hash ^ u64::from(byte)).wrapping_mul(0x0000_0100_0000_01B3)
            });
        let base = Source::new(seed ^ name).next_bits();
        Source::new(Source::new(base.wrapping_add(case)).next_bits())
    }

    /// Whether the rule for unlike zeros changes the answer.
    pub fn is_ruled(&self, input: &Input, answer: &Answer) -> bool {
        self.plain
            .is_some_and(|plain| !plain(input).same(answer, self.arguments))
    }
}

/// Puts a returned value where the driver reads it; the answer is 0.
pub fn give(rooms: &mut Rooms<'_>, value: f64) -> u64 {
    rooms.numbers[0][0] = value;
    0
}
