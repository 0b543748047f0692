//! Whole plates under a sound rig.

use super::rigs::{damping, observed, rig};
use super::source::Source;
use crate::optimizer::Problem;
use crate::schur::{Correspondence, Rig};

/// A plate with everything that a whole step is lent.
#[derive(Clone, Debug)]
pub struct Case {
    pub rig: Rig,
    pub damping: f64,
    pub points: Vec<f64>,
    pub view1: Vec<f64>,
    pub view2: Vec<f64>,
    pub inverse_deviations: Vec<f64>,
}

impl Case {
    pub(super) fn new(rig: Rig, damping: f64) -> Self {
        Self {
            rig,
            damping,
            points: Vec::new(),
            view1: Vec::new(),
            view2: Vec::new(),
            inverse_deviations: Vec::new(),
        }
    }

    pub(super) fn push(&mut self, correspondence: Correspondence) {
        self.points.extend(correspondence.point);
        self.view1.extend(correspondence.view1);
        self.view2.extend(correspondence.view2);
        self.inverse_deviations
            .push(correspondence.inverse_deviation);
    }

    /// As the whole step takes it.
    pub fn problem(&self) -> Problem<'_> {
        Problem {
            rig: self.rig,
            damping: self.damping,
            points: &self.points,
            view1: &self.view1,
            view2: &self.view2,
            inverse_deviations: &self.inverse_deviations,
        }
    }

    /// One correspondence of it; the lengths must belong to one count.
    pub fn correspondence(&self, index: usize) -> Correspondence {
        Correspondence {
            point: self.points.as_chunks().0[index],
            view1: self.view1.as_chunks().0[index],
            view2: self.view2.as_chunks().0[index],
            inverse_deviation: self.inverse_deviations[index],
        }
    }

    /// How many correspondences.
    pub fn count(&self) -> usize {
        self.inverse_deviations.len()
    }

    /// Every number of the case, to be changed in place.
    pub fn places(&mut self) -> Vec<&mut f64> {
        let rig = &mut self.rig;
        rig.cameras
            .as_flattened_mut()
            .iter_mut()
            .chain(&mut rig.rotation)
            .chain(&mut rig.translation)
            .chain(&mut rig.basis)
            .chain([&mut rig.baseline, &mut self.damping])
            .chain(&mut self.points)
            .chain(&mut self.view1)
            .chain(&mut self.view2)
            .chain(&mut self.inverse_deviations)
            .collect()
    }
}

/// The correspondences of a plate: a tilted grid about four to eight units away.
pub(super) fn grid(source: &mut Source, n: usize) -> Vec<[f64; 3]> {
    let width = (1..).find(|width| width * width >= n).unwrap_or(1);
    let (depth, tilt) = (source.between(4.0, 8.0), source.between(-0.3, 0.3));
    let spacing = source.between(1.0, 3.0) / width as f64;
    (0..n)
        .map(|index| {
            let x = ((index % width) as f64 - 0.5 * width as f64) * spacing;
            let y = ((index / width) as f64 - 0.5 * width as f64) * spacing;
            let rough = source.between(-0.05, 0.05);
            [x, y, depth + tilt * x + rough]
        })
        .collect()
}

/// A sound rig over a plate of `n` correspondences, seen with noise.
pub fn problem(source: &mut Source, n: usize) -> Case {
    let mut case = Case::new(rig(source), damping(source));
    let noise = if source.once_in(6) { 0.0 } else { 0.5 };
    for point in grid(source, n) {
        let correspondence = observed(source, &case.rig, point, noise);
        case.push(correspondence);
    }
    case
}
