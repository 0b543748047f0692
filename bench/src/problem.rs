//! One problem with everything that the calls take, made before the clock
//! starts: flat for the port, and in its own types for the original.

use oracle::generate::{Case, Source, problem};
use oracle::optimizer::timed::{OwnBlock, OwnSystem, Prepared};

/// The seed of every plate: a sound rig, up to 0.5 pixels of noise.
const SEED: u64 = 7;

/// A sound plate of `n` correspondences at a damping.
pub fn case(n: usize, damping: f64) -> Case {
    let mut case = problem(&mut Source::new(SEED), n);
    case.damping = damping;
    case
}

/// The inputs of every call.
pub struct Problem<'a> {
    pub case: &'a Case,
    pub prepared: Prepared<'a>,
    pub rig: [f64; 29],
    pub correspondences: Vec<[f64; 8]>,
    pub own_blocks: Vec<OwnBlock>,
    pub blocks: Vec<[f64; 59]>,
    pub own_matrices: Vec<[[f64; 3]; 3]>,
    pub matrices: Vec<[f64; 9]>,
}

impl<'a> Problem<'a> {
    pub fn new(case: &'a Case) -> Self {
        let prepared = Prepared::new(&case.problem());
        let indices = 0..case.count();
        let own_blocks: Vec<OwnBlock> = indices
            .clone()
            .map(|index| prepared.block(index).expect("a sound point"))
            .collect();
        let flat = own_blocks.iter().map(OwnBlock::flat);
        assert!(flat.clone().all(|block| block.squared_residual > 0.0));
        Self {
            case,
            rig: case.rig.numbers(),
            correspondences: indices
                .map(|index| case.correspondence(index).numbers())
                .collect(),
            blocks: flat.clone().map(|block| block.numbers()).collect(),
            matrices: flat.map(|block| block.point_hessian).collect(),
            own_matrices: own_blocks.iter().map(OwnBlock::matrix).collect(),
            own_blocks,
            prepared,
        }
    }

    pub fn count(&self) -> usize {
        self.case.count()
    }

    pub fn damping(&self) -> f64 {
        self.case.damping
    }

    pub fn point(&self, index: usize) -> &[f64; 3] {
        &self.case.points.as_chunks().0[index]
    }

    pub fn view1(&self, index: usize) -> &[f64; 2] {
        &self.case.view1.as_chunks().0[index]
    }

    /// The first diagonal entry of a point's matrix: what the factor takes
    /// the root of.
    pub fn curvature(&self, index: usize) -> f64 {
        self.matrices[index][0]
    }

    /// All blocks, added by the original.
    pub fn own_system(&self) -> OwnSystem {
        let mut system = OwnSystem::default();
        for block in &self.own_blocks {
            system.add(block, self.damping());
        }
        system
    }
}
