//! e^-q between two fractions, by its series.

use crate::fraction::{whole, Fraction, Real};
use crate::natural::Natural;

/// Digits of 64 bits behind the point in which e^-q is worked out.
const DIGITS: usize = 3;
/// q is halved this often before the series, and the result squared as often.
const HALVINGS: u32 = 12;
/// Even, and with q/2^12 below 1/64 large enough for the last term to be below 2^-192.
const TERMS: u64 = 24;

fn rounded_up((n, rest): (Natural, bool)) -> Natural {
    if rest {
        n.plus(&1.into())
    } else {
        n
    }
}

/// e^-q for q below 64 with a bottom below 2^64: the alternating series of e^-(q/2^12) with each term enclosed, then twelve squarings;
/// to 2^-170 at least.
pub fn exponential(q: &Fraction) -> Real {
    assert!(q < &whole(64));
    let bottom = q.bottom.small().expect("a bottom below 2^64");
    let r_low = q.top.raised(DIGITS).divided(bottom).0.divided(1 << HALVINGS).0;
    // Less than one unit is cut off, and nothing at 0.
    let r_high = rounded_up((r_low.clone(), q > &whole(0)));
    let one = Natural::from(1).raised(DIGITS);
    let (mut low, mut high) = series(&one, &r_low, &r_high);
    for _ in 0..HALVINGS {
        low = low.times(&low).lowered(DIGITS).0;
        high = rounded_up(high.times(&high).lowered(DIGITS));
    }
    Real {
        low: Fraction { top: low, bottom: one.clone() },
        high: Fraction { top: high, bottom: one },
    }
}

/// Bounds of e^-r for r from r_low to r_high, below 1/64: the sum of (-r)^j/j!. Its terms fall, so that e^-r is below the sum
/// after an even term and above it after an odd one; the last term, an even one, goes to the upper bound alone.
fn series(one: &Natural, r_low: &Natural, r_high: &Natural) -> (Natural, Natural) {
    let (mut term_low, mut term_high) = (one.clone(), one.clone());
    let (mut low, mut high) = (one.clone(), one.clone());
    for j in 1..=TERMS {
        term_low = term_low.times(r_low).lowered(DIGITS).0.divided(j).0;
        term_high = rounded_up(rounded_up(term_high.times(r_high).lowered(DIGITS)).divided(j));
        if j % 2 == 1 {
            low = low.minus(&term_high).expect("the terms fall");
            high = high.minus(&term_low).expect("the terms fall");
        } else {
            high = high.plus(&term_high);
            if j < TERMS {
                low = low.plus(&term_low);
            }
        }
    }
    (low, high)
}

/// S_n, the sum of q^j/j! for j from 0 to n.
pub fn partial_sum(q: &Fraction, n: u64) -> Fraction {
    let one = whole(1);
    (1..=n).rev().fold(one.clone(), |sum, j| one.plus(&q.over(&whole(j)).times(&sum)))
}

#[cfg(test)]
mod tests {
    use super::{exponential, partial_sum};
    use crate::fraction::{fraction, whole, Fraction};
    use crate::natural::Natural;

    /// Document 01's own reading of e^-q, at an n large enough for 2^-160: low·S_n ≤ 1 and (high + 2^-160)·S_n ≥ 1.
    #[test]
    fn the_enclosure_holds_one_over_the_partial_sums() {
        let slack = Fraction { top: 1.into(), bottom: Natural::from(1 << 96).raised(1) };
        for (top, bottom) in [(0, 1), (1, 1_000_000), (1, 64), (1, 2), (7, 3), (5, 1), (53, 1)] {
            let q = fraction(top, bottom);
            let (enclosure, sum) = (exponential(&q), partial_sum(&q, 400));
            assert!(enclosure.low.times(&sum) <= whole(1), "above e^-({top}/{bottom})");
            let high = enclosure.high.plus(&slack).times(&sum);
            assert!(high >= whole(1), "below e^-({top}/{bottom})");
            assert!(enclosure.high <= enclosure.low.plus(&slack), "too wide at {top}/{bottom}");
        }
    }
}
