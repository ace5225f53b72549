//! The middle of many numbers, and how far they spread.

#[derive(Clone, Copy)]
pub struct Spread {
    pub least: f64,
    pub lower: f64,
    pub median: f64,
    pub upper: f64,
}

impl Spread {
    /// The least, the median and the quartiles of the numbers, of which there is one at least.
    pub fn of(mut numbers: Vec<f64>) -> Spread {
        numbers.sort_by(f64::total_cmp);
        let at = |quarter: usize| numbers[(numbers.len() - 1) * quarter / 4];
        Spread { least: at(0), lower: at(1), median: at(2), upper: at(3) }
    }
}
