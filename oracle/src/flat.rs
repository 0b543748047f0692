//! Rows to flat arrays and back, and the comparison of two numbers.

/// A flat array as rows.
pub fn rows<const R: usize, const C: usize>(flat: &[f64]) -> [[f64; C]; R] {
    std::array::from_fn(|row| std::array::from_fn(|column| flat[row * C + column]))
}

/// Rows as a flat array of `N` = rows times columns.
pub fn flat<const C: usize, const N: usize>(rows: &[[f64; C]]) -> [f64; N] {
    std::array::from_fn(|index| rows[index / C][index % C])
}

/// The same number: equal bits, or both NaN.
pub fn same(left: f64, right: f64) -> bool {
    bits(left) == bits(right)
}

/// The bits, with one pattern for every NaN.
pub fn bits(value: f64) -> u64 {
    if value.is_nan() {
        f64::NAN.to_bits()
    } else {
        value.to_bits()
    }
}

/// Every pair the same, and as many on both sides.
pub fn all_same(left: &[f64], right: &[f64]) -> bool {
    left.len() == right.len() && left.iter().zip(right).all(|(&a, &b)| same(a, b))
}
