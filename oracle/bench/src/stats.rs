//! Medians, quartiles and growth.

/// First quartile, median and third quartile.
pub struct Spread(pub [f64; 3]);

impl Spread {
    pub fn of(values: &[f64]) -> Self {
        let mut sorted = values.to_vec();
        sorted.sort_by(f64::total_cmp);
        Spread([0.25, 0.5, 0.75].map(|part| between(&sorted, part)))
    }

    /// Of the quotients, repetition by repetition.
    pub fn of_ratios(over: &[f64], under: &[f64]) -> Self {
        let ratios: Vec<f64> = over.iter().zip(under).map(|(over, under)| over / under).collect();
        Spread::of(&ratios)
    }

    pub fn median(&self) -> f64 {
        self.0[1]
    }
}

/// The value at this part of the way through sorted values.
fn between(sorted: &[f64], part: f64) -> f64 {
    let at = part * (sorted.len() - 1) as f64;
    let (low, high) = (sorted[at.floor() as usize], sorted[at.ceil() as usize]);
    low + (high - low) * at.fract()
}

/// The exponent of time over size: the slope of the logarithms, by least squares.
pub fn growth(points: &[(f64, f64)]) -> f64 {
    let logs: Vec<(f64, f64)> = points.iter().map(|(size, time)| (size.ln(), time.ln())).collect();
    let mean = |of: fn(&(f64, f64)) -> f64| logs.iter().map(of).sum::<f64>() / logs.len() as f64;
    let (x, y) = (mean(|point| point.0), mean(|point| point.1));
    let above: f64 = logs.iter().map(|point| (point.0 - x) * (point.1 - y)).sum();
    let below: f64 = logs.iter().map(|point| (point.0 - x).powi(2)).sum();
    above / below
}

#[cfg(test)]
mod tests {
    use super::*;

    #[test]
    fn growth_of_squares() {
        let points = [1.0, 2.0, 4.0_f64].map(|size| (size, 3.0 * size * size));
        assert!((growth(&points) - 2.0).abs() < 1e-9);
    }

    #[test]
    fn quartiles() {
        assert_eq!(Spread::of(&[5.0, 1.0, 3.0, 2.0, 4.0]).0, [2.0, 3.0, 4.0]);
    }
}
