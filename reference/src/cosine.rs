//! The cosines of whole degrees from 0 to 90 between two fractions, by their series, and the table of C-16 of document 02.

use crate::fraction::{fraction, least, whole, Fraction, Real};
use std::sync::LazyLock;

/// π between two numbers of 10^-14, which document 02 gives.
const PI: [u64; 2] = [314_159_265_358_979, 314_159_265_358_980];
const PI_UNITS: u64 = 100_000_000_000_000;
/// Terms after the first, of which the last is below 10^-19 up to 90 degrees; even.
const TERMS: u64 = 12;
/// A bound is a whole number of 10^-18.
const UNITS: u64 = 1_000_000_000_000_000_000;
/// An entry of the table is a whole number of 10^-9.
pub const BILLION: u64 = 1_000_000_000;

/// The square of an angle, with that number for π.
fn square(degree: u64, pi: u64) -> Fraction {
    let angle = fraction(degree * pi, 180 * PI_UNITS);
    angle.times(&angle)
}

/// The sum of (-1)^j·x^(2j)/(2j)! for j from 0 to n, by the square of x.
fn partial_sum(square: &Fraction, n: u64) -> Fraction {
    let one = whole(1);
    (1..=n).rev().fold(one.clone(), |sum, j| {
        one.minus(&square.over(&whole((2 * j - 1) * 2 * j)).times(&sum))
    })
}

/// The terms fall from the second on, so that the cosine is below the sum after an even term, at the lesser angle, and above it after an
/// odd one, at the greater.
fn enclosed(degree: u64) -> Real {
    let units = |pi, terms| partial_sum(&square(degree, pi), terms).times(&whole(UNITS)).up();
    let [least_pi, greatest_pi] = PI;
    Real {
        low: fraction(units(greatest_pi, TERMS + 1) - 1, UNITS),
        high: fraction(units(least_pi, TERMS), UNITS),
    }
}

fn cosine(degree: u64) -> Real {
    match degree {
        0 => Real::exactly(whole(1)),
        60 => Real::exactly(fraction(1, 2)),
        90 => Real::exactly(whole(0)),
        _ => enclosed(degree),
    }
}

/// By degree, from 0 to 90.
pub static COSINES: LazyLock<Vec<Real>> = LazyLock::new(|| (0..=90).map(cosine).collect());

/// The least number of billionths that is not below each cosine: the rule allows no lesser one, and where the cosine is none itself one more.
pub static TABLE: LazyLock<Vec<u64>> = LazyLock::new(|| {
    let entry = |cosine: &Real| {
        let billionths = cosine.times(&whole(BILLION));
        least(30, |entry| billionths.is_at_most(&whole(entry as u64))) as u64
    };
    COSINES.iter().map(entry).collect()
});

#[cfg(test)]
mod tests {
    use super::{enclosed, BILLION, COSINES, TABLE};
    use crate::fraction::{fraction, whole};

    #[test]
    fn every_entry_is_the_least_that_the_rule_allows() {
        assert_eq!(TABLE.len(), 91);
        for (degree, (entry, cosine)) in TABLE.iter().zip(COSINES.iter()).enumerate() {
            let billionths = cosine.times(&whole(BILLION));
            assert!(whole(*entry) >= billionths.high, "below the cosine at {degree}");
            let two_above = billionths.low.plus(&whole(2));
            assert!(whole(*entry) < two_above, "2 or more above at {degree}");
            let lesser_is_below = *entry == 0 || whole(entry - 1) < billionths.low;
            assert!(lesser_is_below, "not the least at {degree}");
        }
    }

    #[test]
    fn the_entries_at_0_60_and_90_are_exact() {
        assert_eq!([0, 60, 90].map(|degree| TABLE[degree]), [BILLION, BILLION / 2, 0]);
        let half = enclosed(60);
        assert!(half.low <= fraction(1, 2) && fraction(1, 2) <= half.high, "the series at 60");
    }

    /// cos² + sin² = 1, the sine being the cosine of what is left of 90 degrees.
    #[test]
    fn the_squares_of_cosine_and_sine_are_1_together() {
        for (cosine, sine) in COSINES.iter().zip(COSINES.iter().rev()) {
            let squares = cosine.product(cosine).plus(&sine.product(sine));
            assert!(squares.low <= whole(1) && whole(1) <= squares.high);
            assert!(squares.high <= squares.low.plus(&fraction(1, 10_000_000_000_000)));
        }
    }
}
