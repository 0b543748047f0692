//! The memory that a call is lent, with guards on both sides of each argument.

use std::hint::black_box;
use std::ops::Range;
use std::slice::{from_raw_parts, from_raw_parts_mut};

use crate::function::Argument;
use crate::input::Input;

/// Stands around each argument: a finite number that no case has.
const GUARD: u64 = 0xFE4C_E5FE_4CE5_FE4C;

/// How many guards stand on each side.
const GUARDS: usize = 4;

/// The memory of one argument.
struct Block {
    argument: Argument,
    length: usize,
    words: Vec<u64>,
}

impl Block {
    fn new(argument: Argument, entries: &[u64]) -> Self {
        let room = (entries.len() * argument.kind.width()).div_ceil(8);
        let mut words = vec![GUARD; GUARDS + room + GUARDS];
        let inner = &mut words[GUARDS..GUARDS + room];
        match argument.kind.width() {
            8 => inner.copy_from_slice(entries),
            width => pack(inner, entries, width),
        }
        Self {
            argument,
            length: entries.len(),
            words,
        }
    }

    /// Where the entries are, among all bytes.
    fn inside(&self) -> Range<usize> {
        let start = 8 * GUARDS;
        start..start + self.length * self.argument.kind.width()
    }

    /// Guards and entries.
    fn all_bytes(&self) -> &[u8] {
        // The words hold eight bytes each.
        unsafe { from_raw_parts(self.words.as_ptr().cast(), 8 * self.words.len()) }
    }

    /// So many entries of a type that fills the kind's width and has no bad
    /// patterns; a word is aligned for each.
    fn slice<T>(&self) -> &[T] {
        assert_eq!(size_of::<T>(), self.argument.kind.width());
        unsafe { from_raw_parts(self.words[GUARDS..].as_ptr().cast(), self.length) }
    }

    /// The same, to be written.
    fn slice_mut<T>(&mut self) -> &mut [T] {
        assert_eq!(size_of::<T>(), self.argument.kind.width());
        unsafe { from_raw_parts_mut(self.words[GUARDS..].as_mut_ptr().cast(), self.length) }
    }

    /// One entry a number, count or byte.
    fn entries(&self) -> Vec<u64> {
        match self.argument.kind.width() {
            8 => self.slice::<u64>().to_vec(),
            2 => self.slice::<u16>().iter().map(|&x| u64::from(x)).collect(),
            _ => self.slice::<u8>().iter().map(|&x| u64::from(x)).collect(),
        }
    }

    /// What has changed since the block was `before`, if anything. What is
    /// written may differ inside where the call gave a result.
    fn change(&self, before: &Self, gave_result: bool) -> Option<String> {
        let (now, was) = (self.all_bytes(), before.all_bytes());
        let inside = self.inside();
        let free = self.argument.is_written() && gave_result;
        let place = (0..now.len())
            .filter(|place| !(free && inside.contains(place)))
            .find(|&place| now[place] != was[place])?;
        let (name, word) = (self.argument.name, self.words[place / 8]);
        Some(match place {
            place if place < inside.start => format!("{name}: before it stands {word:016X}"),
            place if place >= inside.end => format!("{name}: behind it stands {word:016X}"),
            place => {
                let index = (place - inside.start) / self.argument.kind.width();
                let beside = if self.argument.is_written() {
                    " beside a refusal"
                } else {
                    ""
                };
                format!("{name}: entry {index} has changed to {word:016X}{beside}")
            }
        })
    }
}

/// Entries of so many bytes into words; what is left of the last is guard.
fn pack(words: &mut [u64], entries: &[u64], width: usize) {
    let bytes = entries
        .iter()
        .flat_map(|entry| entry.to_le_bytes().into_iter().take(width));
    let mut bytes = bytes.collect::<Vec<_>>();
    let guard = GUARD.to_le_bytes();
    while !bytes.len().is_multiple_of(8) {
        bytes.push(guard[bytes.len() % 8]);
    }
    for (word, bytes) in words.iter_mut().zip(bytes.as_chunks().0) {
        *word = u64::from_le_bytes(*bytes);
    }
}

/// The arguments that a call only reads, by their place among all.
pub struct Lent<'a>(Vec<Option<&'a Block>>);

impl Lent<'_> {
    fn block(&self, argument: usize) -> &Block {
        self.0[argument].expect("an argument that is only read")
    }

    pub fn number(&self, argument: usize) -> f64 {
        self.numbers(argument)[0]
    }

    pub fn word(&self, argument: usize) -> u64 {
        self.block(argument).slice()[0]
    }

    pub fn numbers(&self, argument: usize) -> &[f64] {
        self.block(argument).slice()
    }

    pub fn counts(&self, argument: usize) -> &[u16] {
        self.block(argument).slice()
    }

    #[allow(dead_code, reason = "for the run record")]
    pub fn bytes(&self, argument: usize) -> &[u8] {
        self.block(argument).slice()
    }
}

/// What a call writes, in the order of the arguments.
#[derive(Default)]
pub struct Rooms<'a> {
    pub numbers: Vec<&'a mut [f64]>,
    pub counts: Vec<&'a mut [u16]>,
    #[allow(dead_code, reason = "for the run record")]
    pub bytes: Vec<&'a mut [u8]>,
}

/// The memory of all arguments.
pub struct Memory(Vec<Block>);

impl Memory {
    pub fn new(arguments: &[Argument], input: &Input) -> Self {
        let blocks = arguments.iter().zip(&input.0);
        Self(
            blocks
                .map(|(&argument, entries)| Block::new(argument, entries))
                .collect(),
        )
    }

    /// Lends it to a call, whose code comes back.
    pub fn call(&mut self, port: fn(&Lent<'_>, &mut Rooms<'_>) -> u64) -> u64 {
        let (mut lent, mut rooms) = (Vec::new(), Rooms::default());
        for block in &mut self.0 {
            if !block.argument.is_written() {
                lent.push(Some(&*block));
                continue;
            }
            lent.push(None);
            match block.argument.kind.width() {
                8 => rooms.numbers.push(block.slice_mut()),
                2 => rooms.counts.push(block.slice_mut()),
                _ => rooms.bytes.push(block.slice_mut()),
            }
        }
        let code = port(&Lent(lent), &mut rooms);
        // What was lent to be read is looked at again, not assumed unchanged.
        black_box(&mut self.0);
        code
    }

    /// The patterns of all that is written.
    pub fn results(&self) -> Vec<Vec<u64>> {
        let written = self.0.iter().filter(|block| block.argument.is_written());
        written.map(Block::entries).collect()
    }

    /// What the call changed and should not have.
    pub fn change(&self, input: &Input, gave_result: bool) -> Option<String> {
        self.0.iter().zip(&input.0).find_map(|(block, entries)| {
            block.change(&Block::new(block.argument, entries), gave_result)
        })
    }
}

#[cfg(test)]
mod tests {
    use super::*;
    use crate::function::{Kind, count_state, counts, lent, number, open, room};
    use crate::input::fill;

    const ARGUMENTS: [Argument; 7] = [
        lent("list", 3),
        number("value"),
        open("record", Kind::Bytes),
        room(2),
        counts("counts", 5),
        count_state("state", 3),
        open("text", Kind::ByteRoom),
    ];

    fn input() -> Input {
        let record = (0..11).collect();
        let list = [1.0_f64, -0.0, f64::NAN].map(f64::to_bits);
        let room = vec![fill(Kind::Room); 2];
        let counts = vec![1, 2, 3, 4, 65_535];
        Input(vec![
            list.to_vec(),
            vec![5],
            record,
            room,
            counts,
            vec![7, 8, 9],
            vec![fill(Kind::ByteRoom); 11],
        ])
    }

    #[test]
    fn a_call_sees_what_the_input_has() {
        let mut memory = Memory::new(&ARGUMENTS, &input());
        let code = memory.call(|lent, rooms| {
            assert_eq!(lent.numbers(0)[0], 1.0);
            assert_eq!(lent.numbers(0).len(), 3);
            assert_eq!((lent.number(1).to_bits(), lent.word(1)), (5, 5));
            assert_eq!(lent.bytes(2), [0, 1, 2, 3, 4, 5, 6, 7, 8, 9, 10]);
            assert_eq!(lent.counts(4), [1, 2, 3, 4, 65_535]);
            assert_eq!(*rooms.counts[0], [7, 8, 9]);
            rooms.numbers[0].copy_from_slice(&[2.0, 3.0]);
            rooms.counts[0][1] = 0x1234;
            rooms.bytes[0].copy_from_slice(b"eleven left");
            0
        });
        assert_eq!(code, 0);
        let room = [2.0, 3.0].map(f64::to_bits).to_vec();
        let text = b"eleven left".map(u64::from).to_vec();
        assert_eq!(memory.results(), [room, vec![7, 0x1234, 9], text]);
        assert_eq!(memory.change(&input(), true), None);
        let change = memory.change(&input(), false).expect("written");
        assert!(
            change.contains("entry 0 has changed to 4000000000000000"),
            "{change}"
        );
    }

    /// Every byte of the memory counts, guards and what follows a last entry.
    #[test]
    fn each_changed_byte_is_found() {
        let sizes = Memory::new(&ARGUMENTS, &input()).0;
        for (block, size) in sizes.iter().map(|block| 8 * block.words.len()).enumerate() {
            for place in 0..size {
                let mut memory = Memory::new(&ARGUMENTS, &input());
                let inside = memory.0[block].inside().contains(&place);
                memory.0[block].words[place / 8] ^= 1 << (8 * (place % 8));
                assert!(memory.change(&input(), false).is_some());
                let free = inside && [3, 5, 6].contains(&block);
                assert_eq!(memory.change(&input(), true).is_none(), free);
            }
        }
    }
}
