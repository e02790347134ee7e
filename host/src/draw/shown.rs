//! Numbers as the drawing writes them.

use crate::description::Description;
use crate::number::in_threes;
use crate::units::Units;

const THIN_SPACE: char = '\u{2009}';

/// A whole number.
pub fn grouped(number: u64) -> String {
    in_threes(&number.to_string(), THIN_SPACE)
}

/// A length in mm, which no line breaks.
pub fn length(length: impl Into<u64>) -> String {
    format!("{}\u{a0}mm", grouped(length.into()))
}

/// A number as it is written without groups, whole or a decimal.
pub fn grouped_number(written: &str) -> String {
    match written.split_once('.') {
        Some((whole, rest)) => format!("{}.{rest}", in_threes(whole, THIN_SPACE)),
        None => in_threes(written, THIN_SPACE),
    }
}

/// A load of the library, Pa or N/m.
pub fn pressure(units: Units, pressure: u32) -> String {
    grouped_number(&units.show(pressure))
}

/// A pressure that is negative where it acts inward.
pub fn signed(units: Units, number: i32) -> String {
    let sign = if number < 0 { "-" } else { "" };
    format!("{sign}{}", pressure(units, number.unsigned_abs()))
}

/// A pressure at an axis, without zeros behind the point.
pub fn round_pressure(units: Units, number: u32) -> String {
    let shown = pressure(units, number);
    match shown.contains('.') {
        true => shown.trim_end_matches('0').trim_end_matches('.').to_string(),
        false => shown,
    }
}

/// The hopper's slope from the horizontal.
pub fn degrees(silo: &Description) -> String {
    format!("α {}°", silo.degrees())
}

/// From the brim down to the grain's surface.
pub fn headroom(silo: &Description) -> String {
    format!("g {}", length(silo.headroom))
}

#[cfg(test)]
mod tests {
    use super::*;

    #[test]
    fn pressures_keep_every_digit() {
        let thin = |text: &str| text.replace(' ', "\u{2009}");
        assert_eq!(pressure(Units::Whole, 4_300_050), thin("4 300 050"));
        assert_eq!(pressure(Units::Kilo, 4_300_050), thin("4 300.050"));
        assert_eq!(pressure(Units::Kilo, 7), "0.007");
        assert_eq!(round_pressure(Units::Kilo, 4_300_000), thin("4 300"));
        assert_eq!(round_pressure(Units::Kilo, 20), "0.02");
        assert_eq!(round_pressure(Units::Whole, 5_000), thin("5 000"));
    }
}
