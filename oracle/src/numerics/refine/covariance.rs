//! Stands in for the covariance report, whose file is not at hand. Only
//! reports that are not compared carry it.

#[derive(Clone, Copy, Debug, PartialEq)]
pub struct InformationDiagnostics {
    pub dimension: usize,
    pub rank: usize,
    pub residual_count: usize,
    pub reciprocal_condition_number: f64,
}

impl InformationDiagnostics {
    pub fn is_full_rank(self) -> bool {
        self.rank == self.dimension
    }
}
