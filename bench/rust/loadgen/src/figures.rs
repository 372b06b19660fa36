//! Figures as the line has them.

/// The value below which such a share of all lies; zero where there is none.
pub fn percentile(values: &mut [f64], share: f64) -> f64 {
    if values.is_empty() {
        return 0.0;
    }
    values.sort_by(f64::total_cmp);
    values[((values.len() - 1) as f64 * share).round() as usize]
}

/// Thousandths are kept.
pub fn rounded(value: f64) -> f64 {
    (value * 1000.0).round() / 1000.0
}
