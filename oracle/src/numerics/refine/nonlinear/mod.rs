//! The original's `nonlinear` tree. The damping controller and the staging are
//! not at hand; these hand a damping in and write down what the loop decides.

#[allow(dead_code)]
#[rustfmt::skip]
#[path = "../../../../original/crates/openmvg-ba/src/numerics/refine/nonlinear/progress.rs"]
pub mod progress;
#[allow(dead_code)]
#[rustfmt::skip]
#[path = "../../../../original/crates/openmvg-ba/src/numerics/refine/nonlinear/run_state.rs"]
pub mod run_state;

pub use progress::{StepRejection, StepRejections};
pub use run_state::LmRunState;

use super::{Loss, Options};
use crate::recorder;

/// One stage of the loop.
pub struct Stage {
    pub max_iterations: usize,
    pub loss: Loss,
}

/// A single stage with the loss as given.
pub fn stages(options: Options) -> [Stage; 1] {
    [Stage {
        max_iterations: options.max_iterations,
        loss: options.loss,
    }]
}

pub fn final_stage_index(stages: &[Stage]) -> usize {
    stages.len() - 1
}

/// Starts at damping NaN, which no block survives; the rejection that follows
/// puts the damping in that was handed to the recorder.
#[derive(Clone, Copy, Debug)]
pub struct NielsenController {
    damping: f64,
}

impl NielsenController {
    pub const fn new() -> Self {
        Self::with_initial(f64::NAN)
    }

    pub const fn with_initial(damping: f64) -> Self {
        Self { damping }
    }

    pub const fn value(self) -> f64 {
        self.damping
    }

    pub const fn last_gain_ratio(self) -> Option<f64> {
        None
    }

    pub fn reject(&mut self) {
        recorder::end_candidate();
        self.damping = recorder::damping();
    }

    /// Writes both reductions down and answers as the recorder was told.
    pub fn accept(&mut self, actual: f64, predicted: f64) -> bool {
        recorder::end_candidate();
        recorder::gain(actual, predicted)
    }
}
