//! Numbers as a person writes them: decimals read exactly, units turned into those of a sheet.

use crate::fraction::Fraction;
use crate::inches;
use crate::message::{Mend, Number, Reading, Slip, What};

/// `digits` over 10^`places`, with no zeros at the end of the fraction.
#[derive(Clone, Copy)]
pub struct Decimal {
    digits: u64,
    places: u32,
}

/// More digits than any number of a sheet needs, and few enough for a u64.
const MOST_DIGITS: usize = 18;

impl Decimal {
    pub fn read(text: &str) -> Result<Decimal, Slip> {
        let wrong = |slip: Number| Err(Slip::new(slip).at(text));
        if text.starts_with('-') {
            return wrong(Number::Negative);
        }
        if text.contains(',') {
            return Err(comma(text, false));
        }
        let (whole, fraction) = text.split_once('.').unwrap_or((text, ""));
        let fraction = fraction.trim_end_matches('0');
        let digits = format!("{whole}{fraction}");
        let written = text.chars().any(|c| c.is_ascii_digit());
        if !written || !digits.chars().all(|c| c.is_ascii_digit()) {
            return wrong(Number::NotANumber(None));
        }
        if digits.len() > MOST_DIGITS {
            return wrong(Number::TooManyDigits);
        }
        // no digits are left of ".0"
        let digits = digits.parse().unwrap_or(0);
        Ok(Decimal { digits, places: fraction.len() as u32 })
    }

    fn value(self) -> f64 {
        self.digits as f64 / 10_f64.powi(self.places as i32)
    }

    /// Of a mass in so many millionths of a kg, N rounded up, times so many hundredths.
    fn weight(self, millionths: u64, hundredths: u64) -> u64 {
        let weighed = u128::from(self.digits) * u128::from(millionths) * u128::from(GRAVITY);
        let raised = weighed.saturating_mul(hundredths.into());
        raised.div_ceil(10_u128.pow(self.places + 10)).try_into().unwrap_or(u64::MAX)
    }

    /// The number times 10^`power`, where that is whole and at most `most`.
    fn whole(self, power: u32, most: u64) -> Result<u64, Misfit> {
        let Some(zeros) = power.checked_sub(self.places) else {
            return Err(Misfit::Finer(self.digits / 10_u64.pow(self.places - power)));
        };
        let number = self.digits.checked_mul(10_u64.pow(zeros)).filter(|number| *number <= most);
        number.ok_or(Misfit::TooLarge)
    }
}

/// What a number with commas between its digits may mean: thousands, a decimal, or several numbers where a list is due.
pub fn comma(text: &str, in_list: bool) -> Slip {
    let groups: Vec<&str> = text.split(',').collect();
    let mut mends = Vec::new();
    if text.contains('.') {
        mends.extend(last_as_point(text).map(Mend::plain));
    } else if in_thousands(&groups) {
        mends.push(Mend::plain(groups.concat()));
    }
    if let [before, after] = groups[..] {
        if after.len() <= 3 && after != "000" && !text.contains('.') {
            mends.push(Mend::new(format!("{before}.{after}"), Reading::Decimal));
        }
    }
    // zeros in front stand in no number of their own
    if in_list && groups.iter().all(|group| *group == "0" || !group.starts_with('0')) {
        mends.push(Mend::new(groups.join(", "), Reading::Numbers(groups.len())));
    }
    Slip::new(Number::Comma(groups.len())).at(text).with(mends)
}

/// Of commas and points the last is the decimal's.
fn last_as_point(text: &str) -> Option<String> {
    let (whole, fraction) = text.rsplit_once([',', '.'])?;
    Some(format!("{}.{fraction}", whole.replace([',', '.'], "")))
}

/// Groups of digits that are one number written in thousands.
pub fn in_thousands(groups: &[&str]) -> bool {
    let threes = groups[1..].iter().all(|group| group.len() == 3);
    threes && (1..=3).contains(&groups[0].len()) && !groups[0].starts_with('0')
}

enum Misfit {
    /// The whole number below.
    Finer(u64),
    TooLarge,
}

#[derive(Clone, Copy, Debug, PartialEq, Eq)]
pub enum Quantity {
    Length,
    /// The greater, the greater the patch load.
    Eccentricity,
    /// The greater, the lower every load.
    Headroom,
    StrakeHeight,
    Weight,
    Angle,
    Ratio,
    Friction,
    Factor,
}

impl Quantity {
    pub fn is_length(self) -> bool {
        use Quantity::{Eccentricity, Headroom, Length, StrakeHeight};
        matches!(self, Length | Eccentricity | Headroom | StrakeHeight)
    }
}

/// How a quantity is written, and what a sheet holds of it.
pub struct Measure {
    pub quantity: Quantity,
    /// Each unit, and the power of ten that turns it into the sheet's.
    pub units: &'static [(&'static str, u32)],
    /// The most that the sheet's number can be.
    pub most: u64,
    /// The library's limits, as far as they do not depend on other numbers; a mend stays inside.
    pub limits: (u64, u64),
    pub show: fn(u64) -> String,
    /// What a person may write in its place.
    instead: Instead,
}

enum Instead {
    Nothing,
    /// A mass for a weight.
    Mass,
    /// An angle of friction for its tangent.
    Angle,
}

/// Units of mass per volume, in millionths of a kg/m3, rounded up.
const MASSES: [(&str, u64); 14] = [
    ("kg/m3", 1_000_000),
    ("kg/hl", 10_000_000),
    ("t/m3", 1_000_000_000),
    ("g/cm3", 1_000_000_000),
    ("kg/dm3", 1_000_000_000),
    ("kg/l", 1_000_000_000),
    ("g/l", 1_000_000),
    ("lb/ft3", 16_018_464),
    ("lbs/ft3", 16_018_464),
    ("pcf", 16_018_464),
    ("lb/bu", 12_871_860),
    ("lbs/bu", 12_871_860),
    ("lb/bushel", 12_871_860),
    ("lbs/bushel", 12_871_860),
];

/// m/s2, hundredths
pub const GRAVITY: u32 = 981;

/// Lighter is no grain, N/m3
pub const LIGHTEST: u64 = 4000;

/// Heavier is none, N/m3
const HEAVIEST: u64 = 9500;

/// Hundredths by which a measured mean weight is raised at least (7.3.1).
const RAISED: u64 = 115;

/// A measured mean weight, raised as 7.3.1 has it.
pub fn raised(weight: u64) -> u64 {
    let raised = u128::from(weight) * u128::from(RAISED);
    raised.div_ceil(100).try_into().unwrap_or(u64::MAX)
}

const LENGTH_UNITS: &[(&str, u32)] = &[("mm", 0), ("cm", 1), ("m", 3)];

/// Depths.
pub const LENGTH: Measure = Measure {
    quantity: Quantity::Length,
    units: LENGTH_UNITS,
    most: u32::MAX as u64,
    limits: (0, 72_000),
    show: millimetres,
    instead: Instead::Nothing,
};
/// A diameter, or a side of a rectangle.
pub const SIDE: Measure = Measure { limits: (500, 50_000), ..LENGTH };
pub const HOPPER_HEIGHT: Measure = Measure { limits: (1, 25_000), ..LENGTH };
pub const HOPPER_RUN: Measure = Measure { limits: (1, 24_999), ..LENGTH };
pub const OUTLET: Measure = Measure { limits: (1, 49_998), ..LENGTH };
pub const ECCENTRICITY: Measure =
    Measure { quantity: Quantity::Eccentricity, limits: (0, 12_500), ..LENGTH };
pub const HEADROOM: Measure =
    Measure { quantity: Quantity::Headroom, limits: (0, 71_999), ..LENGTH };
/// From depth to depth.
pub const STEP: Measure = Measure { limits: (1, 72_000), ..LENGTH };
pub const STRAKE: Measure = Measure {
    quantity: Quantity::StrakeHeight,
    most: u16::MAX as u64,
    limits: (200, 3_000),
    ..LENGTH
};
pub const WEIGHT: Measure = Measure {
    quantity: Quantity::Weight,
    units: &[("N/m3", 0), ("kN/m3", 3)],
    most: u32::MAX as u64,
    limits: (1_000, 30_000),
    show: newtons,
    instead: Instead::Mass,
};
/// Thousandths of a degree.
pub const ANGLE: Measure = Measure {
    quantity: Quantity::Angle,
    units: &[("deg", 3), ("degrees", 3), ("degree", 3), ("°", 3)],
    most: 360_000,
    limits: (20_000, 90_000),
    show: degrees,
    instead: Instead::Nothing,
};
/// Hundredths, written without a unit.
pub const RATIO: Measure = Measure {
    quantity: Quantity::Ratio,
    units: &[("", 2)],
    most: u16::MAX as u64,
    limits: (20, 100),
    show: hundredths,
    instead: Instead::Nothing,
};
pub const FRICTION: Measure =
    Measure { quantity: Quantity::Friction, limits: (10, 100), instead: Instead::Angle, ..RATIO };
pub const FACTOR: Measure = Measure { quantity: Quantity::Factor, limits: (100, 200), ..RATIO };

/// Digits in groups of three: 23,456.
pub fn in_threes(digits: &str, separator: char) -> String {
    let mut text = String::new();
    for (i, digit) in digits.chars().enumerate() {
        if i > 0 && (digits.len() - i).is_multiple_of(3) {
            text.push(separator);
        }
        text.push(digit);
    }
    text
}

/// Of `1.000`, which some read as a thousand, that thousand.
fn thousands(number: &str) -> Option<u64> {
    let (whole, fraction) = number.split_once('.')?;
    let alike = in_thousands(&[whole, fraction]) && fraction == "000";
    whole.parse::<u64>().ok().filter(|_| alike).map(|whole| 1000 * whole)
}

/// A unit as the tables have it.
fn plain_unit(unit: &str) -> String {
    let unit = unit.replace('³', "3").replace('^', "");
    let unit = unit.trim_end_matches('.').to_string();
    match unit.to_lowercase().trim_end_matches('s') {
        "millimetre" | "millimeter" | "millimètre" => "mm".to_string(),
        "centimetre" | "centimeter" | "centimètre" => "cm".to_string(),
        "metre" | "meter" | "mètre" | "mtr" => "m".to_string(),
        "degré" | "degre" => "deg".to_string(),
        _ => unit,
    }
}

pub fn millimetres(number: u64) -> String {
    format!("{number} mm")
}

pub fn newtons(number: u64) -> String {
    format!("{number} N/m3")
}

/// Thousandths of a degree, without zeros at the end.
pub fn degrees(number: u64) -> String {
    let written = format!("{}.{:03}", number / 1000, number % 1000);
    format!("{} degrees", written.trim_end_matches('0').trim_end_matches('.'))
}

/// Tenths, without a zero behind the point.
pub fn tenths(number: u64) -> String {
    match number % 10 {
        0 => (number / 10).to_string(),
        tenth => format!("{}.{tenth}", number / 10),
    }
}

pub fn hundredths(number: u64) -> String {
    format!("{}.{:02}", number / 100, number % 100)
}

impl Measure {
    /// The power of ten for a unit of this quantity, in capitals or not.
    fn power_of(&self, unit: &str) -> Option<u32> {
        let known = self.units.iter().find(|(known, _)| known.eq_ignore_ascii_case(unit));
        known.map(|(_, power)| *power)
    }

    /// A length in feet and inches, where it is one: whole mm, or the mm beside it, the nearer first.
    pub fn in_inches(&self, text: &str) -> Option<Result<u64, Slip>> {
        let is_length = self.quantity.is_length();
        let exact = Some(text).filter(|_| is_length).and_then(inches::millimetres)?;
        let below = exact.down().try_into().unwrap_or(u64::MAX);
        if exact.bottom == 1 && below <= self.most {
            return Some(Ok(below));
        }
        let slip = match below < self.most {
            true => Number::Inches(exact.about(2)),
            false => Number::TooLarge((self.show)(self.most)),
        };
        let mut mends = self.beside(below);
        if exact.times(Fraction::whole(2_u128)).down() > 2 * exact.down() {
            mends.reverse();
        }
        Some(Err(Slip::new(slip).at(text).with(mends)))
    }

    /// The unit at the front, and what follows it; where the quantity has no unit, nothing and all of it.
    pub fn unit_before<'a>(&self, text: &'a str) -> Option<(&'static str, &'a str)> {
        let ends = |rest: &str| !rest.starts_with(|c: char| c.is_alphanumeric());
        let mut units = self.units.iter().filter_map(|(unit, _)| {
            let start = text.get(..unit.len())?;
            let rest = &text[unit.len()..];
            let ends = unit.is_empty() || ends(rest);
            (start.eq_ignore_ascii_case(unit) && ends).then_some((*unit, rest))
        });
        units.next_back()
    }

    /// A number without a unit that is no grain's weight in any of them, but a mass: with the unit that it has then.
    fn as_mass(&self, decimal: Decimal, number: &str) -> Option<Slip> {
        let units = ["kg/m3", "kg/hl", "t/m3"].into_iter();
        let mut slips = units.filter_map(|unit| Some((unit, self.instead(decimal, unit)?)));
        let is_grain = |slip: &Slip| match *slip.what {
            What::Number(Number::Mass(weight)) => weight >= LIGHTEST && !slip.mends.is_empty(),
            _ => false,
        };
        let (unit, slip) = slips.find(|(_, slip)| is_grain(slip))?;
        // as many lb/ft3 may be grain too, and heavier
        let pounds = self.instead(decimal, "lb/ft3").map(|slip| *slip.what);
        let is_other = matches!(pounds, Some(What::Number(Number::Mass(LIGHTEST..=HEAVIEST))));
        Some(slip.at(format!("{number} {unit}"))).filter(|_| unit != "kg/hl" || !is_other)
    }

    /// The sheet's unit.
    pub fn unit(&self) -> &'static str {
        self.units[0].0
    }

    pub fn is_unit(&self, word: &str) -> bool {
        self.power_of(word).is_some()
    }

    fn has_unit(&self) -> bool {
        self.units.iter().any(|(unit, _)| !unit.is_empty())
    }

    /// A decimal with each unit in which it is inside the limits, and a weight that of a grain. Of spellings the first; of strakes and of
    /// an eccentricity in parts of a unit the greater first.
    fn with_units(&self, decimal: Decimal, number: &str) -> Vec<Mend> {
        let least = if self.quantity == Quantity::Weight { LIGHTEST } else { 0 };
        let first =
            |unit: &&(&str, u32)| self.units.iter().find(|other| other.1 == unit.1) == Some(unit);
        let is_inside = |number: u64| number >= least && self.is_inside(number);
        let fits = |power: u32| decimal.whole(power, self.most).is_ok_and(is_inside);
        let units = self.units.iter().filter(first).filter(|unit| fits(unit.1));
        let mut mends: Vec<Mend> =
            units.map(|(unit, _)| Mend::plain(format!("{number} {unit}"))).collect();
        match self.quantity {
            Quantity::StrakeHeight => mends.reverse(),
            Quantity::Eccentricity if decimal.places > 0 => mends.reverse(),
            _ => (),
        }
        mends
    }

    pub fn is_inside(&self, number: u64) -> bool {
        (self.limits.0..=self.limits.1).contains(&number)
    }

    /// Numbers that a person may write, of those inside the limits.
    pub fn mends(&self, numbers: impl IntoIterator<Item = u64>) -> Vec<Mend> {
        let numbers = numbers.into_iter().filter(|number| self.is_inside(*number));
        numbers.map(|number| Mend::plain((self.show)(number))).collect()
    }

    /// The numbers on both sides of one that is too fine, each with what it is careful for; of a weight, a factor or an eccentricity the upper,
    /// of a headroom the lower.
    fn beside(&self, below: u64) -> Vec<Mend> {
        let above = below.saturating_add(1);
        let careful = |lower: Reading, upper: Reading| {
            let lower =
                self.mends([below]).into_iter().map(move |mend| mend.read_as(lower.clone()));
            let upper =
                self.mends([above]).into_iter().map(move |mend| mend.read_as(upper.clone()));
            lower.chain(upper).collect()
        };
        match self.quantity {
            Quantity::Weight | Quantity::Factor | Quantity::Eccentricity => self.mends([above]),
            Quantity::Headroom => self.mends([below]),
            Quantity::Friction => careful(Reading::ForPush, Reading::ForDrag),
            Quantity::Ratio => careful(Reading::ForFloor, Reading::ForWall),
            _ => self.mends([below, above]),
        }
    }

    /// The hundredths on both sides of the tangent of an angle of friction in degrees.
    pub fn tangents(&self, degrees: f64) -> Vec<Mend> {
        self.beside((100.0 * degrees.to_radians().tan()).floor().clamp(0.0, 1e6) as u64)
    }

    /// A weight, N/m³, that is said to be a mean or measured.
    pub fn raised(&self, weight: u64) -> Slip {
        Slip::new(Number::MeanWeight).with(self.mends([raised(weight)]))
    }

    /// Another quantity in place of the one that is due, and what it would be here.
    pub fn instead(&self, decimal: Decimal, unit: &str) -> Option<Slip> {
        let written = plain_unit(unit).to_lowercase();
        match self.instead {
            Instead::Nothing => None,
            Instead::Mass => {
                let (_, mass) = MASSES.iter().find(|(unit, _)| *unit == written)?;
                let mends = self.mends([decimal.weight(*mass, RAISED)]);
                Some(Slip::new(Number::Mass(decimal.weight(*mass, 100))).with(mends))
            }
            Instead::Angle => {
                ANGLE.units.iter().find(|(unit, _)| *unit == written)?;
                let degrees = decimal.value();
                let mends = self.tangents(degrees);
                let tangent = format!("{:.3}", degrees.to_radians().tan());
                Some(Slip::new(Number::Angle((!mends.is_empty()).then_some(tangent))).with(mends))
            }
        }
    }

    /// The power of ten for a written unit; a number other than 0 needs one where there are any.
    pub fn power(&self, decimal: Decimal, number: &str, unit: Option<&str>) -> Result<u32, Slip> {
        let Some(written) = unit else {
            if !self.has_unit() || decimal.digits == 0 {
                return Ok(self.units[0].1);
            }
            let mends = self.with_units(decimal, number);
            let mass = self.as_mass(decimal, number).filter(|_| mends.is_empty());
            let all = self.units.iter().map(|(unit, _)| *unit).collect();
            return Err(mass.unwrap_or_else(|| Slip::new(Number::NoUnit(all)).with(mends)));
        };
        if !self.has_unit() {
            let hundredth = Decimal { places: decimal.places + 2, ..decimal };
            let percent = hundredth.whole(self.units[0].1, self.most).ok();
            let mends = self.mends(percent.filter(|_| written == "%"));
            return Err(Slip::new(Number::HasNoUnit(self.quantity)).with(mends));
        }
        self.power_of(&plain_unit(written)).ok_or_else(|| {
            let units = self.units.iter().map(|(unit, _)| *unit).collect();
            let (unit, quantity) = (written.to_string(), self.quantity);
            Slip::new(Number::UnknownUnit { unit, quantity, units })
        })
    }

    /// The sheet's number for a decimal.
    pub fn whole(&self, decimal: Decimal, power: u32, number: &str) -> Result<u64, Slip> {
        if let Some(thousands) = thousands(number).filter(|_| power == 0) {
            let mends = self.mends([thousands / 1000, thousands]);
            return Err(Slip::new(Number::InThousands).with(mends));
        }
        decimal.whole(power, self.most).map_err(|misfit| match misfit {
            Misfit::Finer(below) => {
                let is_lighter = self.quantity == Quantity::Headroom;
                let meant = self.unit_for(decimal).filter(|_| !is_lighter);
                let meant = meant.map(|unit| format!("{number} {unit}"));
                let mut mends = self.beside(below);
                mends.extend(meant.map(Mend::plain));
                Slip::new(Number::Finer).with(mends)
            }
            Misfit::TooLarge => Slip::new(Number::TooLarge((self.show)(self.most))),
        })
    }

    /// The largest unit in which a decimal is a number inside the limits.
    fn unit_for(&self, decimal: Decimal) -> Option<&'static str> {
        let whole = |power: u32| decimal.whole(power, self.most).ok();
        let fits = |unit: &&(&str, u32)| whole(unit.1).is_some_and(|n| self.is_inside(n));
        self.units.iter().rev().find(fits).map(|(unit, _)| *unit)
    }
}
