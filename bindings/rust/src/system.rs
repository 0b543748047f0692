//! The block of a point and the reduced system, in the flat form of the C
//! interface. `include/pixel_step.h` has the order of the numbers.

use crate::{Refusal, filled, slices};

/// Cameras, rotation, translation, translation basis and baseline.
pub type Rig = [f64; 29];

/// A point, where both views saw it, and its inverse standard deviation.
pub type Correspondence = [f64; 8];

/// What a point adds to the system.
pub type Block = [f64; 59];

/// A point's step and its damping norm.
#[derive(Clone, Copy, Debug, PartialEq)]
pub struct PointStep {
    pub step: [f64; 3],
    pub damping_norm: f64,
}

/// The block of a correspondence. Row 4, and row 9 with view 1 or 2.
pub fn linearize_point(rig: &Rig, correspondence: &Correspondence) -> Result<Block, Refusal> {
    filled(|out| slices::linearize_point(rig, correspondence, out))
}

/// How a point moves with a step of the pose. Rows 3 and 10.
pub fn point_step_with_damping_norm(
    block: &Block,
    damping: f64,
    pose_step: &[f64; 5],
) -> Result<PointStep, Refusal> {
    let [step @ .., damping_norm] =
        filled::<4>(|out| slices::point_step_with_damping_norm(block, damping, pose_step, out))?;
    Ok(PointStep { step, damping_norm })
}

/// The equations of the pose once each point is eliminated. A refused call
/// leaves it as it was.
#[derive(Clone, Copy, Debug, PartialEq)]
pub struct System {
    pub numbers: [f64; 45],
    /// Weak count, block count, flag.
    pub counts: [u16; 3],
}

impl System {
    /// Without blocks.
    pub fn new() -> Result<Self, Refusal> {
        let (mut numbers, mut counts) = ([0.0; 45], [0; 3]);
        done(slices::system_new(&mut numbers, &mut counts))?;
        Ok(Self { numbers, counts })
    }

    /// Takes a block in. Rows 3, 12 and 13.
    pub fn add(&mut self, block: &Block, damping: f64) -> Result<(), Refusal> {
        done(slices::system_add(
            &mut self.numbers,
            &mut self.counts,
            block,
            damping,
        ))
    }

    /// Adds the damping to the diagonal. Row 3.
    pub fn finish_damping(&mut self, damping: f64) -> Result<(), Refusal> {
        done(slices::system_finish_damping(
            &mut self.numbers,
            &mut self.counts,
            damping,
        ))
    }

    /// Whether each block factored and the equations are finite. Never refused.
    pub fn is_valid(&self) -> Result<bool, Refusal> {
        let mut out = [0];
        done(slices::system_is_valid(
            &self.numbers,
            &self.counts,
            &mut out,
        ))?;
        Ok(out == [1])
    }

    /// The largest scaled gradient entry. Never refused.
    pub fn scaled_gradient_inf_norm(&self) -> Result<f64, Refusal> {
        filled(|out| slices::system_scaled_gradient_inf_norm(&self.numbers, &self.counts, out))
            .map(|[norm]| norm)
    }

    /// What a step of the pose is predicted to gain. Row 3.
    pub fn predicted_reduction(
        &self,
        step: &[f64; 5],
        damping: f64,
        point_damping_norm: f64,
    ) -> Result<f64, Refusal> {
        let (numbers, counts) = (&self.numbers, &self.counts);
        let call = |out: &mut [f64]| {
            slices::system_predicted_reduction(
                numbers,
                counts,
                step,
                damping,
                point_damping_norm,
                out,
            )
        };
        filled(call).map(|[reduction]| reduction)
    }
}

/// No result of its own where a call answers 0.
fn done(code: u64) -> Result<(), Refusal> {
    Refusal::from_code(code).map_or(Ok(()), Err)
}
