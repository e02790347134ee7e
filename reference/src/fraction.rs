//! Exact fractions from 0 up, and real numbers enclosed between two of them.

use crate::natural::Natural;
use std::cmp::Ordering;

#[derive(Clone, Debug)]
pub struct Fraction {
    pub top: Natural,
    pub bottom: Natural,
}

pub fn fraction(top: u64, bottom: u64) -> Fraction {
    assert!(bottom > 0);
    Fraction { top: u128::from(top).into(), bottom: u128::from(bottom).into() }
}

pub fn whole(n: u64) -> Fraction {
    fraction(n, 1)
}

impl Fraction {
    pub fn plus(&self, other: &Fraction) -> Fraction {
        Fraction {
            top: self.top.times(&other.bottom).plus(&other.top.times(&self.bottom)),
            bottom: self.bottom.times(&other.bottom),
        }
    }

    /// The difference, or 0 where it is below 0.
    pub fn minus(&self, other: &Fraction) -> Fraction {
        let (left, right) = (self.top.times(&other.bottom), other.top.times(&self.bottom));
        Fraction {
            top: left.minus(&right).unwrap_or(0.into()),
            bottom: self.bottom.times(&other.bottom),
        }
    }

    pub fn times(&self, other: &Fraction) -> Fraction {
        Fraction { top: self.top.times(&other.top), bottom: self.bottom.times(&other.bottom) }
    }

    pub fn over(&self, other: &Fraction) -> Fraction {
        assert!(other > &whole(0));
        Fraction { top: self.top.times(&other.bottom), bottom: self.bottom.times(&other.top) }
    }

    /// Whether n is the least whole number not below this fraction.
    pub fn rounds_up_to(&self, n: u64) -> bool {
        &whole(n) >= self && (n == 0 || &whole(n - 1) < self)
    }

    /// The least whole number not below this fraction, which is under 2^64.
    pub fn up(&self) -> u64 {
        least(64, |n| Natural::from(n).times(&self.bottom) >= self.top) as u64
    }
}

/// The least n with a property that holds from some n below 2^bits on, bits at most 127.
pub fn least(bits: u32, holds: impl Fn(u128) -> bool) -> u128 {
    let (mut low, mut high) = (0, 1 << bits);
    while low < high {
        let middle = low + (high - low) / 2;
        if holds(middle) {
            high = middle;
        } else {
            low = middle + 1;
        }
    }
    low
}

impl PartialEq for Fraction {
    fn eq(&self, other: &Fraction) -> bool {
        self.top.times(&other.bottom) == other.top.times(&self.bottom)
    }
}

impl PartialOrd for Fraction {
    fn partial_cmp(&self, other: &Fraction) -> Option<Ordering> {
        Some(self.top.times(&other.bottom).cmp(&other.top.times(&self.bottom)))
    }
}

/// A real number from `low` to `high`.
#[derive(Clone, Debug)]
pub struct Real {
    pub low: Fraction,
    pub high: Fraction,
}

impl Real {
    pub fn exactly(value: Fraction) -> Real {
        Real { low: value.clone(), high: value }
    }

    pub fn plus(&self, other: &Real) -> Real {
        Real { low: self.low.plus(&other.low), high: self.high.plus(&other.high) }
    }

    /// The difference, which is known to be 0 or more.
    pub fn minus(&self, other: &Real) -> Real {
        Real { low: self.low.minus(&other.high), high: self.high.minus(&other.low) }
    }

    pub fn times(&self, factor: &Fraction) -> Real {
        Real { low: self.low.times(factor), high: self.high.times(factor) }
    }

    pub fn product(&self, other: &Real) -> Real {
        Real { low: self.low.times(&other.low), high: self.high.times(&other.high) }
    }

    /// The square root, to 2^-80, of a fraction below 2^92.
    pub fn square_root(of: &Fraction) -> Real {
        let scaled = |n: u128| Fraction { top: n.into(), bottom: (1 << 80).into() };
        let squared = |n: u128| scaled(n).times(&scaled(n));
        let high = least(126, |n| &squared(n) >= of);
        let low = if &squared(high) == of { high } else { high - 1 };
        Real { low: scaled(low), high: scaled(high) }
    }

    /// The least whole number not below this one; the enclosure has to be narrow enough to tell.
    pub fn up(&self) -> u64 {
        let up = self.high.up();
        assert!(self.low.rounds_up_to(up), "an enclosure is too wide to round");
        up
    }

    /// Whether the number is at most `bound`; the enclosure has to be narrow enough to tell.
    pub fn is_at_most(&self, bound: &Fraction) -> bool {
        let yes = &self.high <= bound;
        assert!(yes || &self.low > bound, "an enclosure is too wide to decide");
        yes
    }
}
