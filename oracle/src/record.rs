//! The run record and its list (docs/SPECIFICATION.md, "Run record" and "List")
//! around the original's block maker, factor and system.

use std::fmt::Write;

use crate::optimizer::{Refusal, refuse};
use crate::point_block::{self, RCOND_THRESHOLD};
use crate::schur::{Block, Correspondence, Rig, System, linearize_point};

/// The most bytes that a record may have: those of 512 points.
pub const LONGEST: usize = 34_559;

/// What the program prints for a record: the list, or the refusal's line.
pub fn list(record: &[u8]) -> Vec<u8> {
    let text = lines(record).unwrap_or_else(|refusal| {
        let Refusal {
            number,
            view,
            index,
        } = refusal;
        format!("refused {number} {view} {index}\n")
    });
    text.into_bytes()
}

/// The list, or the refusal that stands in its place.
pub fn lines(record: &[u8]) -> Result<String, Refusal> {
    let run = read(record)?;
    if let Some(refusal) = rows_3_to_8(&run) {
        return Err(refusal);
    }
    let blocks = blocks(&run)?;
    let mut text = format!("run {} {:016X}\n", blocks.len(), run.damping.to_bits());
    let mut system = System::new();
    for (index, block) in blocks.iter().enumerate() {
        let letter = letter(block, run.damping);
        writeln!(text, "p {index} {letter}").expect("a string takes all");
        system = system.add(block, run.damping);
    }
    text.push_str(&sum(&system.finish_damping(run.damping)));
    Ok(text)
}

/// What a record in form holds.
struct Run {
    rig: Rig,
    damping: f64,
    correspondences: Vec<Correspondence>,
}

/// The record, and the place where its next field begins.
struct Reader<'a> {
    record: &'a [u8],
    place: usize,
}

impl Reader<'_> {
    /// The numbers of the next field, where this tag and so many are due.
    fn next<const N: usize>(&mut self, tag: u8) -> Result<[f64; N], Refusal> {
        let [low, high, ..] = (8 * N).to_le_bytes();
        let payload = self.record[self.place..]
            .strip_prefix(&[tag, low, high])
            .and_then(|rest| rest.get(..8 * N))
            .ok_or(refuse(15, 0, self.place))?;
        self.place += 3 + payload.len();
        let numbers = payload.as_chunks().0;
        Ok(std::array::from_fn(|i| f64::from_le_bytes(numbers[i])))
    }

    fn next_correspondence(&mut self) -> Result<Correspondence, Refusal> {
        let [x, y, z, u1, v1, u2, v2, inverse_deviation] = self.next(6)?;
        Ok(Correspondence {
            point: [x, y, z],
            view1: [u1, v1],
            view2: [u2, v2],
            inverse_deviation,
        })
    }
}

/// Rows 14 and 15.
fn read(record: &[u8]) -> Result<Run, Refusal> {
    if record.len() > LONGEST {
        return Err(refuse(14, 0, 0));
    }
    let mut reader = Reader { record, place: 0 };
    let cameras = [reader.next(1)?, reader.next(2)?];
    let [rotation @ .., x, y, z] = reader.next::<12>(3)?;
    let [basis @ .., baseline] = reader.next::<7>(4)?;
    let [damping] = reader.next(5)?;
    let mut correspondences = Vec::new();
    while reader.place < record.len() {
        correspondences.push(reader.next_correspondence()?);
    }
    let rig = Rig {
        cameras,
        rotation,
        translation: [x, y, z],
        basis,
        baseline,
    };
    Ok(Run {
        rig,
        damping,
        correspondences,
    })
}

/// The first of rows 3 to 8 whose condition holds, at its lowest index.
fn rows_3_to_8(run: &Run) -> Option<Refusal> {
    let whole = |number, good: bool| (!good).then(|| refuse(number, 0, 0));
    let first = |number, view, good: fn(&Correspondence) -> bool| {
        let index = run
            .correspondences
            .iter()
            .position(|correspondence| !good(correspondence))?;
        Some(refuse(number, view, index))
    };
    let (damping, baseline) = (run.damping, run.rig.baseline);
    whole(3, crate::point_block::good_damping(damping))
        .or_else(|| {
            first(4, 0, |correspondence| {
                positive(correspondence.inverse_deviation)
            })
        })
        .or_else(|| whole(5, baseline.is_finite() && baseline > 64.0 * f64::EPSILON))
        .or_else(|| first(6, 0, |correspondence| finite(&correspondence.point)))
        .or_else(|| whole(7, run.correspondences.len() >= 5))
        .or_else(|| first(8, 1, |correspondence| finite(&correspondence.view1)))
        .or_else(|| first(8, 2, |correspondence| finite(&correspondence.view2)))
}

fn positive(value: f64) -> bool {
    value.is_finite() && value > 0.0
}

fn finite(numbers: &[f64]) -> bool {
    numbers.iter().all(|number| number.is_finite())
}

/// All blocks, or row 9 for the first point that one of the views cannot see.
fn blocks(run: &Run) -> Result<Vec<Block>, Refusal> {
    let block = |(index, correspondence)| {
        linearize_point(&run.rig, correspondence).map_err(|view: usize| refuse(9, view, index))
    };
    run.correspondences.iter().enumerate().map(block).collect()
}

/// What the factor with rcond makes of a block; −0 counts as zero.
fn letter(block: &Block, damping: f64) -> char {
    let matrix = &block.point_hessian;
    match point_block::new(matrix, damping) {
        None => 'n',
        Some(_) if damping != 0.0 => 'f',
        Some(inverse) => {
            let rcond = point_block::reciprocal_condition_number(&inverse, matrix);
            if rcond <= RCOND_THRESHOLD { 'w' } else { 'g' }
        }
    }
}

/// The last line, of a system after pose damping.
fn sum(system: &System) -> String {
    let weak = system.weak_point_count;
    let (validity, verdict) = match (system.is_valid(), weak) {
        (true, 0) => ('y', 'u'),
        (true, _) => ('y', 'x'),
        (false, _) => ('n', 'x'),
    };
    format!(
        "sum {:016X} {:016X} {weak} {validity} {verdict}\n",
        system.cost.to_bits(),
        system.squared_residual.to_bits(),
    )
}
