//! Ratios, each of something that was measured, and their geometric mean.
#![allow(dead_code)] // each program uses its own part

pub struct Ratios<T> {
    of: Vec<(T, f64)>,
}

impl<T: Copy> Ratios<T> {
    pub fn new(of: impl IntoIterator<Item = (T, f64)>) -> Ratios<T> {
        Ratios { of: of.into_iter().collect() }
    }

    pub fn geometric_mean(&self) -> f64 {
        (self.of.iter().map(|(_, ratio)| ratio.ln()).sum::<f64>() / self.of.len() as f64).exp()
    }

    pub fn least(&self) -> (T, f64) {
        *self.of.iter().min_by(|one, other| one.1.total_cmp(&other.1)).expect("a ratio")
    }

    pub fn most(&self) -> (T, f64) {
        *self.of.iter().max_by(|one, other| one.1.total_cmp(&other.1)).expect("a ratio")
    }
}
