//! Stands in for the robust losses. `Loss::L2` calls none of these, and each
//! gives NaN, so that a result that rested on one would show it.

pub fn huber_irls_sqrt_weight(_residual: f64, _delta: f64) -> f64 {
    f64::NAN
}

pub fn huber_cost(_residual: f64, _delta: f64) -> f64 {
    f64::NAN
}

pub fn cauchy_irls_sqrt_weight(_residual: f64, _scale: f64) -> f64 {
    f64::NAN
}

pub fn cauchy_cost(_residual: f64, _scale: f64) -> f64 {
    f64::NAN
}
