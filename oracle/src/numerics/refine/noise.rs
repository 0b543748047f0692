//! How inverse standard deviations reach the original. Its own noise model takes
//! standard deviations and gives their reciprocals, which do not reach every
//! number; here each one is handed in as given, with no arithmetic.

use super::api;

#[derive(Clone, Copy, Debug)]
pub enum NoiseModel<'a> {
    /// One inverse standard deviation per point, passed on unchanged.
    Given(&'a [f64]),
    /// The original's model, to check that both ways agree where both exist.
    Original(api::NoiseModel<'a>),
}

impl NoiseModel<'_> {
    /// The number for one point; NaN past the end, as the original gives.
    pub(crate) fn inverse_standard_deviation(self, observation: usize) -> f64 {
        match self {
            Self::Given(values) => values.get(observation).copied().unwrap_or(f64::NAN),
            Self::Original(noise) => noise.inverse_standard_deviation(observation),
        }
    }

    /// Only the entry point that is not compared asks this.
    pub fn try_validate(self, observation_count: usize) -> Result<(), api::RefinementError> {
        match self {
            Self::Given(_) => Ok(()),
            Self::Original(noise) => noise.try_validate(observation_count),
        }
    }
}
