//! The driver's own arithmetic.

/// The middle of the values, or the mean of the two in the middle.
pub fn median(values: &[f64]) -> f64 {
    quantile(values, 0.5)
}

/// Half of what lies between the quartiles.
pub fn spread(values: &[f64]) -> f64 {
    (quantile(values, 0.75) - quantile(values, 0.25)) / 2.0
}

/// The value at that part of the way through the sorted values, between two
/// of them by proportion.
fn quantile(values: &[f64], part: f64) -> f64 {
    let mut sorted = values.to_vec();
    sorted.sort_by(f64::total_cmp);
    let at = part * (sorted.len() - 1) as f64;
    let (low, high) = (at.floor() as usize, at.ceil() as usize);
    sorted[low] + (sorted[high] - sorted[low]) * at.fract()
}

/// The exponent e for which cost grows as size to the e, between two sizes.
pub fn exponent(sizes: [f64; 2], costs: [f64; 2]) -> f64 {
    (costs[1] / costs[0]).ln() / (sizes[1] / sizes[0]).ln()
}

/// Year, month and day of a number of days since 1970-01-01.
pub fn date(days: u64) -> (u64, u64, u64) {
    let (mut year, mut left) = (1970, days);
    let leap = |year: u64| {
        year.is_multiple_of(4) && (!year.is_multiple_of(100) || year.is_multiple_of(400))
    };
    while left >= 365 + u64::from(leap(year)) {
        left -= 365 + u64::from(leap(year));
        year += 1;
    }
    let february = 28 + u64::from(leap(year));
    let mut month = 1;
    for length in [31, february, 31, 30, 31, 30, 31, 31, 30, 31, 30, 31] {
        if left < length {
            break;
        }
        left -= length;
        month += 1;
    }
    (year, month, left + 1)
}

#[cfg(test)]
mod tests {
    use super::*;

    #[test]
    fn medians() {
        assert_eq!(median(&[3.0]), 3.0);
        assert_eq!(median(&[9.0, 1.0, 5.0]), 5.0);
        assert_eq!(median(&[4.0, 1.0, 2.0, 9.0]), 3.0);
    }

    #[test]
    fn spreads() {
        assert_eq!(spread(&[7.0]), 0.0);
        assert_eq!(spread(&[5.0, 1.0, 3.0, 2.0, 4.0]), 1.0);
        assert_eq!(spread(&[0.0, 1.0]), 0.25);
    }

    #[test]
    fn exponents() {
        assert!((exponent([10.0, 1_000.0], [3.0, 30_000.0]) - 2.0).abs() < 1e-12);
        assert!((exponent([5.0, 50.0], [7.0, 70.0]) - 1.0).abs() < 1e-12);
        assert_eq!(exponent([5.0, 50.0], [7.0, 7.0]), 0.0);
    }

    #[test]
    fn dates() {
        assert_eq!(date(0), (1970, 1, 1));
        assert_eq!(date(59), (1970, 3, 1));
        assert_eq!(date(789), (1972, 2, 29));
        assert_eq!(date(20_772), (2026, 11, 15));
    }
}
