//! Lengths in feet and inches: 5 ft, 16' 5", 47 1/4 in. An inch is 25.4 mm.

use crate::fraction::Fraction;

/// Words and marks for a foot and an inch, in inches.
const UNITS: [(&str, u128); 12] = [
    ("inches", 1),
    ("inch", 1),
    ("in", 1),
    ("pouces", 1),
    ("pouce", 1),
    ("\"", 1),
    ("″", 1),
    ("feet", 12),
    ("foot", 12),
    ("ft", 12),
    ("′", 12),
    ("'", 12),
];

/// Digits of a number that is read, and the finest parts of an inch: few enough for a u128.
const MOST_DIGITS: usize = 9;
const FINEST: u128 = 128;

/// A length in feet, in inches or in both, as mm.
pub fn millimetres(text: &str) -> Option<Fraction> {
    let (first, in_inches, rest) = part(&plain(text))?;
    let inches = match (in_inches, rest.is_empty()) {
        (_, true) => first.times(Fraction::whole(in_inches)),
        (12, false) => {
            let (second, 1, rest) = part(&rest)? else { return None };
            let second = Some(second).filter(|_| rest.is_empty())?;
            first.times(Fraction::whole(12_u128)).plus(second)
        }
        _ => return None,
    };
    Some(inches.times(Fraction::new(127_u128, 5_u128)))
}

/// One mark for each of the quotes that stand for feet and inches.
fn plain(text: &str) -> String {
    let text = text.replace("''", "\"").replace(['’', '‘'], "'").replace(['”', '“'], "\"");
    text.replace('½', " 1/2").replace('¼', " 1/4").replace('¾', " 3/4").to_lowercase()
}

/// A number, its unit in inches, and what follows.
fn part(text: &str) -> Option<(Fraction, u128, String)> {
    let text = text.trim_start();
    let end = text.find(|c: char| !(c.is_ascii_digit() || " ./-".contains(c)))?;
    let (number, rest) = text.split_at(end);
    let (unit, inches) = UNITS.iter().find(|(unit, _)| rest.starts_with(unit))?;
    let rest = &rest[unit.len()..];
    let rest = match rest.strip_prefix('.') {
        // the point is the unit's or the number's
        Some(behind) if behind.starts_with(|c: char| c.is_ascii_digit()) => return None,
        Some(behind) => behind,
        None => rest,
    };
    Some((mixed(number.trim())?, *inches, rest.trim_start_matches([' ', '-']).to_string()))
}

/// `47`, `47.25`, `1/4`, `47 1/4` or `47-1/4`.
fn mixed(number: &str) -> Option<Fraction> {
    let (whole, fraction) = match number.rsplit_once([' ', '-']) {
        Some((whole, fraction)) if fraction.contains('/') => (whole.trim(), fraction),
        None if number.contains('/') => ("0", number),
        _ => (number, "0/1"),
    };
    let (top, bottom) = fraction.split_once('/')?;
    let bottom = digits(bottom).filter(|bottom| (1..=FINEST).contains(bottom))?;
    let (before, after) = whole.split_once('.').unwrap_or((whole, ""));
    let scale = 10_u128.pow(after.len().min(MOST_DIGITS) as u32);
    let decimal = digits(&format!("{before}{after}"))?;
    Some(Fraction::new(decimal, scale).plus(Fraction::new(digits(top)?, bottom)))
}

fn digits(text: &str) -> Option<u128> {
    let short = !text.is_empty() && text.len() <= MOST_DIGITS;
    let all = text.chars().all(|c| c.is_ascii_digit());
    Some(text).filter(|_| short && all)?.parse().ok()
}

#[cfg(test)]
mod tests {
    use super::{millimetres, Fraction};

    /// Hundredths of a mm, where these are whole.
    fn hundredths(text: &str) -> Option<u128> {
        let hundredths = millimetres(text)?.times(Fraction::whole(100_u128));
        Some(hundredths.top).filter(|_| hundredths.bottom == 1)
    }

    #[test]
    fn feet_and_inches_are_exact() {
        let lengths = [
            ("5 ft", 152_400),
            ("16' 5\"", 500_380),
            ("16'5''", 500_380),
            ("16 ft 5 in", 500_380),
            ("16 ft. 5 in.", 500_380),
            ("16 ft - 5 in", 500_380),
            ("5 ft .5 in", 153_670),
            ("5 ft. .5 in", 153_670),
            ("47 1/4 in", 120_015),
            ("47-1/4\"", 120_015),
            ("47¼ in", 120_015),
            ("3' 11 1/4\"", 120_015),
            ("0.5 inch", 1_270),
            ("1/2 in", 1_270),
            ("50 inches", 127_000),
        ];
        for (text, mm) in lengths {
            assert_eq!(hundredths(text), Some(mm), "{text}");
        }
        for text in [
            "5 m",
            "5",
            "ft",
            "5 ft 3",
            "5 in 3 in",
            "1/0 in",
            "5'000 mm",
            "5 ft 3 ft",
            "5 ft.5 in",
            "1234567890 in",
            "1/999999999 in",
            ".999999999 999999999/999999999 ft 9.99999999 999999999/999999999 in",
            "1.00000001 1/999999999 ft 1.00000001 1/999999999 in",
        ] {
            assert_eq!(millimetres(text), None, "{text}");
        }
    }

    /// The longest numbers with the finest parts are shown without an overflow.
    #[test]
    fn the_longest_lengths_have_room() {
        let shown = |text| millimetres(text).map(|mm| mm.about(2));
        let whole = "999999999 999999999/128 ft 999999999 999999999/127 in";
        assert_eq!(shown(whole).as_deref(), Some("about 332781249667.22"));
        let fine = ".999999997 999999999/127 ft .999999997 999999999/128 in";
        assert_eq!(shown(fine).as_deref(), Some("about 2598437827.60"));
    }
}
