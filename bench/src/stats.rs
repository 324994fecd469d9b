//! Medians and spreads.

/// The median, and the 10th and the 90th percentile.
#[derive(Clone, Copy)]
pub struct Spread {
    pub low: f64,
    pub median: f64,
    pub high: f64,
}

impl Spread {
    /// Of at least one number.
    pub fn of(mut numbers: Vec<f64>) -> Spread {
        numbers.sort_by(f64::total_cmp);
        let at = |percent: usize| numbers[(numbers.len() - 1) * percent / 100];
        Spread {
            low: at(10),
            median: at(50),
            high: at(90),
        }
    }

    /// Of the quotients of two rows of numbers, place by place.
    pub fn of_ratios(over: &[f64], under: &[f64]) -> Spread {
        Spread::of(over.iter().zip(under).map(|(a, b)| a / b).collect())
    }
}
