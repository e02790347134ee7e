//! The units in which loads are written.

use crate::fraction::Fraction;

/// Whole Pa, N/m and N as the library gives them, or kPa, kN/m and kN with three digits behind the point, which lose nothing.
#[derive(Clone, Copy, Debug, Default, PartialEq, Eq)]
pub enum Units {
    #[default]
    Whole,
    Kilo,
}

impl Units {
    pub fn pressure(self) -> &'static str {
        match self {
            Units::Whole => "Pa",
            Units::Kilo => "kPa",
        }
    }

    pub fn per_metre(self) -> &'static str {
        match self {
            Units::Whole => "N/m",
            Units::Kilo => "kN/m",
        }
    }

    pub fn force(self) -> &'static str {
        match self {
            Units::Whole => "N",
            Units::Kilo => "kN",
        }
    }

    /// A load of the library, Pa, N/m or N.
    pub fn show(self, load: u32) -> String {
        match self {
            Units::Whole => load.to_string(),
            Units::Kilo => thousandths(load.into()),
        }
    }

    /// So many Pa in the unit of pressures.
    pub fn pascals(self, pascals: Fraction) -> Fraction {
        match self {
            Units::Whole => pascals,
            Units::Kilo => pascals.over(Fraction::whole(1000_u32)),
        }
    }

    /// The same as written, marked where it is rounded to thousandths of a Pa.
    pub fn exact(self, pascals: Fraction) -> String {
        let digits = match self {
            Units::Whole => 3,
            Units::Kilo => 6,
        };
        self.pascals(pascals).about(digits)
    }

    /// A load that is negative where it acts inward.
    pub fn signed(self, load: i32) -> String {
        let sign = if load < 0 { "-" } else { "" };
        format!("{sign}{}", self.show(load.unsigned_abs()))
    }
}

/// With three digits behind the point.
pub fn thousandths(number: u128) -> String {
    format!("{}.{:03}", number / 1000, number % 1000)
}
