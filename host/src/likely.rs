//! What a person may have meant by a value that is not one number with its unit, or not a list.

use crate::catalogue;
use crate::message::{List, Mend, Number, Slip};
use crate::name::plain;
use crate::number::{Measure, Quantity, SIDE, STRAKE};
use crate::text::runs;
use crate::value::{plain_list, quantity, MOST_STRAKES, TIMES};

/// Bytes of a value that is looked at again.
const LONGEST: usize = 200;

/// Marks round words that stand beside a number.
const MARKS: [char; 13] = [' ', '(', ')', '~', '=', ';', ',', '/', '"', '\'', '.', ':', '-'];

/// Words beside a number that leave it as it is, and those that do so beside a diameter or side: each here is a clear one.
const ABOUT: [&str; 9] =
    ["about", "ca", "circa", "approx", "approximately", "env", "environ", "on", "≈"];
const INSIDE: [&str; 8] =
    ["inside", "clear", "inner", "internal", "interieur", "dia", "diameter", "ø"];

/// Words for one end of a range, for a mean, and for half a diameter.
const EXTREMES: [&str; 10] =
    ["max", "min", "maxi", "mini", "maximum", "minimum", "upper", "lower", "low", "high"];
const MEANS: [&str; 6] = ["mean", "measured", "average", "moyen", "moyenne", "mesure"];
const RADIUS: [&str; 3] = ["radius", "rayon", "r"];

/// Orders of strakes.
const TOP_FIRST: [&str; 6] =
    ["top first", "top down", "top to bottom", "from the top", "from top", "from top to bottom"];
const BOTTOM_FIRST: [&str; 7] = [
    "bottom first",
    "bottom up",
    "bottom to top",
    "from the bottom",
    "from bottom",
    "from bottom to top",
    "from the bottom up",
];

/// The words that change what is beside them, or may do so.
fn telling<'a>(words: &'a str, measure: &Measure) -> Vec<&'a str> {
    let is_side = measure.quantity.is_length() && measure.limits == SIDE.limits;
    let leaves = |word: &str| {
        let word = plain(word);
        let known = ABOUT.contains(&&*word) || is_side && INSIDE.contains(&&*word);
        known || catalogue::is_name(&word)
    };
    let words = Some(words).filter(|words| catalogue::row(words).is_err()).unwrap_or_default();
    words.split(MARKS).filter(|word| !word.is_empty() && !leaves(word)).collect()
}

/// The only number of a value, with its unit, where the words round it leave it as it is: they become a comment. Else what the words
/// make of it.
pub fn only_number(value: &str, measure: &Measure) -> Option<Result<Mend, Slip>> {
    let (number, words) = number_and_words(value, measure)?;
    let read = quantity(&number, measure).ok()?;
    let telling = telling(&words, measure);
    if !telling.is_empty() {
        return Some(Err(meant_by(&telling, read, measure)));
    }
    let whole = with_comment(&number, &words);
    measure.is_inside(read).then(|| Ok(Mend::plain(number).in_whole(whole)))
}

/// A word for a mean.
pub fn is_mean(word: &str) -> bool {
    MEANS.contains(&&*plain(word.trim_matches(MARKS)))
}

/// What words beside a number make of it.
fn meant_by(words: &[&str], number: u64, measure: &Measure) -> Slip {
    let among = |list: &[&str]| words.iter().filter(|word| list.contains(&&*plain(word))).count();
    let all = |list: &[&str]| among(list) == words.len();
    match measure.quantity {
        Quantity::Friction | Quantity::Ratio if among(&EXTREMES) > 0 => Slip::new(Number::Extreme),
        Quantity::Weight if all(&MEANS) => measure.raised(number),
        Quantity::Length if measure.limits == SIDE.limits && all(&RADIUS) => {
            Slip::new(Number::Radius).with(measure.mends([2 * number]))
        }
        _ => Slip::new(Number::Words(words.join(" "))),
    }
}

/// The only number of a value, with its unit, and the words round both.
fn number_and_words(value: &str, measure: &Measure) -> Option<(String, String)> {
    if value.len() > LONGEST {
        return None;
    }
    let (before, rest) = value.split_at(value.find(|c: char| c.is_ascii_digit())?);
    let is_sign = |c: char| "-+−±<>".contains(c);
    if before.contains("tan") || before.trim_end().ends_with(is_sign) {
        return None;
    }
    let end = rest.find(|c: char| !c.is_ascii_digit() && c != '.').unwrap_or(rest.len());
    let (number, behind) = rest.split_at(end);
    let (unit, behind) = measure.unit_before(behind.trim_start())?;
    let number = format!("{} {unit}", number.trim_end_matches('.')).trim_end().to_string();
    if behind.contains(|c: char| c.is_ascii_digit() || "%°".contains(c)) {
        return None;
    }
    let words = [before, behind].map(|words| words.trim_matches(MARKS));
    Some((number, words.join(" ").trim().to_string()))
}

/// A value with words behind it, where there are any.
fn with_comment(value: &str, words: &str) -> String {
    match words.is_empty() {
        true => value.to_string(),
        false => format!("{value}  # {words}"),
    }
}

/// `5m50`, `5 m 50` and `5 m 50 cm` in mm.
pub fn metres_and_rest(value: &str, measure: &Measure) -> Option<Mend> {
    let is_length = measure.quantity.is_length();
    let letters: String = value.chars().filter(|c| !c.is_whitespace()).collect();
    let letters = letters.to_lowercase();
    let (metres, rest) = letters.split_once('m').filter(|_| is_length)?;
    let digits = rest.trim_end_matches(['c', 'm']);
    let each = match (&rest[digits.len()..], digits.len()) {
        ("cm", 1 | 2) | ("", 2) => 10,
        ("mm", 1..=3) | ("", 3) => 1,
        _ => return None,
    };
    let (metres, digits): (u32, u32) = (metres.parse().ok()?, digits.parse().ok()?);
    let length = u64::from(metres) * 1000 + u64::from(digits) * each;
    measure.mends([length]).pop()
}

/// A value with the digits 0 and 1 in place of letters that look like them.
pub fn digits_for_letters(value: &str) -> Option<String> {
    let is_number = |word: &str| {
        let alike = |c: char| c.is_ascii_digit() || "oOlI.".contains(c);
        word.starts_with(|c: char| c.is_ascii_digit()) && word.chars().all(alike)
    };
    let words = value.split(' ').map(|word| match is_number(word.trim_end_matches(',')) {
        true => word.replace(['o', 'O'], "0").replace(['l', 'I'], "1"),
        false => word.to_string(),
    });
    Some(words.collect::<Vec<String>>().join(" ")).filter(|mended| mended != value)
}

/// A list with other words than commas between its numbers, or with words behind them.
pub fn other_list(value: &str, measure: &Measure, most: usize) -> Option<Slip> {
    const BETWEEN: [&str; 7] = [" and ", " et ", " then ", "+", "&", " / ", "/"];
    if value.len() > LONGEST {
        return None;
    }
    let is_strakes = measure.quantity == Quantity::StrakeHeight;
    let good = |text: &str| !text.is_empty() && plain_list(text, measure, most).is_ok();
    if let Some(mended) = digits_for_letters(value).filter(|mended| good(mended)) {
        return Some(Slip::new(List::NotHeights).with([Mend::plain(mended)]));
    }
    for between in BETWEEN {
        let parts: Vec<&str> = value.split(between).map(str::trim).collect();
        // of (2 + 6) x 2 m the 2 is a count, and 1/2 m is half of one
        let is_count = |part: &&str| part.parse().is_ok_and(|n: u64| n <= MOST_STRAKES);
        let is_other = is_strakes && (between == "/" || parts.iter().any(is_count));
        let commas = parts.join(", ");
        if value.contains(between) && !is_other && good(&commas) {
            return Some(Slip::new(List::NotHeights).with([Mend::plain(commas)]));
        }
    }
    let mut units = value.match_indices('m').map(|(at, _)| at + 1).filter(|at| *at < value.len());
    let end = units.rfind(|end| good(&value[..*end]))?;
    let (heights, words) = (&value[..end], value[end..].trim_matches(MARKS));
    if words.contains(|c: char| c.is_ascii_digit()) {
        return None;
    }
    let order = plain(words);
    if is_strakes && BOTTOM_FIRST.contains(&&*order) {
        return bottom_first(heights, most);
    }
    let mend = Mend::plain(heights).in_whole(with_comment(heights, words));
    let mended = || Some(Slip::new(List::NotHeights).with([mend]));
    match &telling(words, measure)[..] {
        [] => mended(),
        _ if is_strakes && TOP_FIRST.contains(&&*order) => mended(),
        [word] if ["each", "chacun", "chacune"].contains(word) => {
            Some(()).filter(|_| heights.contains(TIMES)).and_then(|_| mended())
        }
        words => Some(Slip::new(List::Words(words.join(" ")))),
    }
}

/// Strakes that are said to be listed from the bottom.
fn bottom_first(heights: &str, most: usize) -> Option<Slip> {
    let mut heights: Vec<u16> =
        plain_list(heights, &STRAKE, most).ok()?.into_iter().map(|height| height as u16).collect();
    heights.reverse();
    Some(Slip::new(List::BottomFirst).with([Mend::plain(runs(&heights) + " mm")]))
}
