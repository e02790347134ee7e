//! Fractions of whole numbers, exact, and as a person reads them.

/// In lowest terms.
#[derive(Clone, Copy, Debug, PartialEq, Eq)]
pub struct Fraction {
    pub top: u128,
    pub bottom: u128,
}

/// Digits behind the point of a plain number at most: h/d_c is then never shown as 1 or 1.5 where it is neither, since d_c is at most
/// 50,000 mm.
pub const DIGITS: usize = 5;

/// Euclid's greatest common divisor.
fn common_divisor(a: u128, b: u128) -> u128 {
    match b {
        0 => a,
        _ => common_divisor(b, a % b),
    }
}

impl Fraction {
    /// The bottom is not 0.
    pub fn new(top: impl Into<u128>, bottom: impl Into<u128>) -> Fraction {
        let (top, bottom) = (top.into(), bottom.into());
        let divisor = common_divisor(top, bottom);
        Fraction { top: top / divisor, bottom: bottom / divisor }
    }

    pub fn whole(number: impl Into<u128>) -> Fraction {
        Fraction { top: number.into(), bottom: 1 }
    }

    /// `number` hundredths
    pub fn hundredths(number: impl Into<u128>) -> Fraction {
        Fraction::new(number, 100_u128)
    }

    pub fn plus(self, other: Fraction) -> Fraction {
        let top = self.top * other.bottom + other.top * self.bottom;
        Fraction::new(top, self.bottom * other.bottom)
    }

    pub fn times(self, other: Fraction) -> Fraction {
        Fraction::new(self.top * other.top, self.bottom * other.bottom)
    }

    /// The other is not 0.
    pub fn over(self, other: Fraction) -> Fraction {
        Fraction::new(self.top * other.bottom, self.bottom * other.top)
    }

    /// The least whole number not below.
    pub fn up(self) -> u128 {
        self.top.div_ceil(self.bottom)
    }

    /// The greatest whole number not above.
    pub fn down(self) -> u128 {
        self.top / self.bottom
    }

    /// The nearest floating-point number, or one beside it.
    pub fn value(self) -> f64 {
        self.top as f64 / self.bottom as f64
    }

    /// It ends within so many digits behind the point.
    pub fn ends_within(self, digits: usize) -> bool {
        10_u128.pow(digits as u32).is_multiple_of(self.bottom)
    }

    /// The decimal, rounded to the nearest where it has more digits behind the point.
    pub fn to(self, digits: usize) -> String {
        let unit = 10_u128.pow(digits as u32);
        let units = (2 * unit * self.top + self.bottom) / (2 * self.bottom);
        let decimal = format!("{}.{:0digits$}", units / unit, units % unit);
        match self.ends_within(digits) {
            true => decimal.trim_end_matches('0').trim_end_matches('.').to_string(),
            false => decimal,
        }
    }

    /// The same, marked where it is rounded.
    pub fn about(self, digits: usize) -> String {
        let about = if self.ends_within(digits) { "" } else { "about " };
        format!("{about}{}", self.to(digits))
    }

    /// A plain number's decimal.
    pub fn decimal(self) -> String {
        self.to(DIGITS)
    }

    /// The same, marked where it is rounded.
    pub fn shown(self) -> String {
        self.about(DIGITS)
    }
}

#[cfg(test)]
mod tests {
    use super::*;

    #[test]
    fn what_is_rounded_is_marked() {
        let shown = |top: u32, bottom: u32| Fraction::new(top, bottom).shown();
        assert_eq!(shown(5000, 5000), "1");
        assert_eq!(shown(16_000, 5000), "3.2");
        assert_eq!(shown(74_999, 50_000), "1.49998");
        assert_eq!(shown(74_998, 49_999), "about 1.49999");
        assert_eq!(shown(50_000, 49_999), "about 1.00002");
        assert_eq!(shown(11, 9), "about 1.22222");
        assert_eq!(shown(2, 3), "about 0.66667");
        assert_eq!(Fraction::new(1999_u32, 1000_u32).about(2), "about 2.00");
        assert_eq!(Fraction::new(1990_u32, 1000_u32).about(2), "1.99");
        assert_eq!(Fraction::hundredths(135_u16), Fraction { top: 27, bottom: 20 });
    }

    #[test]
    fn sums_products_and_bounds() {
        let [half, third] = [2_u32, 3].map(|bottom| Fraction::new(1_u32, bottom));
        assert_eq!(half.plus(third), Fraction { top: 5, bottom: 6 });
        assert_eq!(half.times(third), Fraction { top: 1, bottom: 6 });
        assert_eq!(half.over(third), Fraction { top: 3, bottom: 2 });
        assert_eq!([half.over(third), Fraction::whole(2_u32)].map(Fraction::up), [2, 2]);
        assert_eq!([half.over(third), Fraction::whole(2_u32)].map(Fraction::down), [1, 2]);
    }
}
