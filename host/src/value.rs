//! The value of a line: one quantity with its unit, or a list of quantities.

mod list;

pub use list::{list, pair, plain_list, MOST_STRAKES};

use crate::likely;
use crate::message::{Mend, Number, Reading, Slip, What};
use crate::name;
use crate::number::{in_thousands, Decimal, Measure, Quantity};

#[derive(Clone, Copy, Debug, PartialEq)]
enum Token<'a> {
    Number(&'a str),
    Word(&'a str),
    Times,
    /// A comma or semicolon.
    Separator,
}

/// Signs between a count and a length.
pub const TIMES: [char; 4] = ['x', 'X', '×', '*'];

fn is_separator(c: char) -> bool {
    c == ',' || c == ';'
}

fn starts_number(text: &str) -> bool {
    let mut characters = text.chars();
    match characters.next() {
        Some('.' | '-' | '+') => characters.next().is_some_and(|c| c.is_ascii_digit() || c == '.'),
        first => first.is_some_and(|c| c.is_ascii_digit()),
    }
}

/// Bytes of the number at the front: a comma with digits on both sides belongs to it.
fn number_length(text: &str) -> usize {
    let bytes = text.as_bytes();
    let digit = |i: usize| bytes.get(i).is_some_and(u8::is_ascii_digit);
    let inside = |i: usize| match bytes[i] {
        b'.' => true,
        b',' => digit(i - 1) && digit(i + 1),
        _ => digit(i),
    };
    (1..bytes.len()).find(|i| !inside(*i)).unwrap_or(bytes.len())
}

fn word_length(text: &str) -> usize {
    text.find(|c: char| c.is_whitespace() || is_separator(c)).unwrap_or(text.len())
}

/// `x` or another sign for times, before white space or a digit; its bytes.
fn times_length(text: &str) -> Option<usize> {
    let sign = text.chars().next().filter(|c| TIMES.contains(c))?;
    let after = &text[sign.len_utf8()..];
    let ends = after.chars().next().is_none_or(|c| c.is_whitespace() || c.is_ascii_digit());
    ends.then_some(sign.len_utf8())
}

fn tokens(value: &str) -> Vec<Token<'_>> {
    let mut tokens = Vec::new();
    let mut rest = value.trim_start();
    while let Some(first) = rest.chars().next() {
        let (length, token): (usize, fn(&str) -> Token) = if is_separator(first) {
            (1, |_| Token::Separator)
        } else if starts_number(rest) {
            (number_length(rest), |text| Token::Number(text))
        } else if let Some(length) = times_length(rest) {
            (length, |_| Token::Times)
        } else {
            (word_length(rest), |text| Token::Word(text))
        };
        tokens.push(token(&rest[..length]));
        rest = rest[length..].trim_start();
    }
    tokens
}

/// Without the white space that stands on both sides of a slash, as in `780 kg / m3`.
fn closed(value: &str) -> String {
    let mut parts = value.split('/');
    let mut text = parts.next().unwrap_or_default().to_string();
    for part in parts {
        let spaced = text.ends_with(char::is_whitespace) && part.starts_with(char::is_whitespace);
        text.truncate(if spaced { text.trim_end().len() } else { text.len() });
        text.push('/');
        text += if spaced { part.trim_start() } else { part };
    }
    text
}

/// One quantity: a number and its unit.
pub fn quantity(value: &str, measure: &Measure) -> Result<u64, Slip> {
    let written = value;
    let value = &closed(&value.replace(['–', '—'], "-"));
    let wrong = |slip: Number| Slip::new(slip).at(written);
    if let Some(slip) = apostrophes(value) {
        return Err(slip);
    }
    if let Some(read) = measure.in_inches(value) {
        return read;
    }
    match &tokens(value)[..] {
        [] => Err(Slip::new(Number::NoValue(measure.quantity))),
        tokens if are_extremes(tokens, measure) => Err(wrong(Number::Extremes)),
        [Token::Number(number)] => one(number, None, measure),
        [Token::Number(number), Token::Word(unit)] => {
            one(number, Some(unit), measure).map_err(|slip| with_likely(slip, value, measure))
        }
        [Token::Number(from), Token::Number(to), rest @ ..] if to.starts_with('-') => {
            Err(range([from, &to[1..]], rest, measure))
        }
        [Token::Number(from), Token::Word(to), Token::Number(second), rest @ ..]
            if RANGE.contains(to) =>
        {
            Err(range([from, second], rest, measure))
        }
        [Token::Number(first), Token::Number(second), rest @ ..] => {
            Err(wrong(Number::TwoNumbers).with(joined(first, second, rest)))
        }
        [Token::Number(_), ..] => Err(meant(wrong(Number::NotOneNumber), value, measure)),
        _ => Err(in_words(value, measure)),
    }
}

/// Words between the ends of a range.
const RANGE: [&str; 5] = ["-", "..", "to", "a", "à"];

/// Of a range of weights the greater end, of a range of masses what that weighs; of no other is it known which end is careful.
fn range(ends: [&str; 2], rest: &[Token], measure: &Measure) -> Slip {
    let slip = Slip::new(Number::Range);
    let [Token::Word(unit)] = rest else { return slip };
    if measure.quantity != Quantity::Weight {
        return slip;
    }
    let mass = |slip: &Slip| match *slip.what {
        What::Number(Number::Mass(weight)) => Some(weight),
        _ => None,
    };
    match ends.map(|end| one(end, Some(unit), measure)) {
        [Ok(from), Ok(to)] => slip.with(measure.mends([from.max(to)])),
        [Err(from), Err(to)] => match mass(&from).zip(mass(&to)) {
            Some((first, second)) => {
                if first > second {
                    from
                } else {
                    to
                }
            }
            None => slip,
        },
        _ => slip,
    }
}

/// Two groups of digits as one number in thousands, where they can be.
fn joined(first: &str, second: &str, rest: &[Token]) -> Option<Mend> {
    let unit = match rest {
        [Token::Word(unit)] => format!(" {unit}"),
        _ => String::new(),
    };
    let joined = in_thousands(&[first, second]).then(|| format!("{first}{second}"))?;
    let whole = joined.clone() + &unit;
    Some(Mend::plain(joined).in_whole(whole))
}

/// A value that is a quantity inside its limits.
fn is_good(value: &str, measure: &Measure) -> bool {
    quantity(value, measure).is_ok_and(|number| measure.is_inside(number))
}

/// A slip of a value that is not one number with its unit, with what was meant by it.
fn meant(slip: Slip, value: &str, measure: &Measure) -> Slip {
    if let Some(slip) = another_mean(value, measure) {
        return slip.at(value);
    }
    let digits = likely::digits_for_letters(value);
    let digits = digits.filter(|digits| is_good(digits, measure));
    let mend = digits.map(Mend::plain);
    match mend.or_else(|| likely::metres_and_rest(value, measure)) {
        Some(mend) => slip.with([mend]),
        None => beside_words(slip, value, measure),
    }
}

/// A mass or an angle in place of what is due, which is said to be a mean or measured.
fn another_mean(value: &str, measure: &Measure) -> Option<Slip> {
    match tokens(value)[..] {
        [Token::Number(number), Token::Word(unit), Token::Word(word)] if likely::is_mean(word) => {
            measure.instead(Decimal::read(number).ok()?, unit)
        }
        _ => None,
    }
}

/// A slip of a value with one number and words beside it: the number alone, or what the words make of it.
fn beside_words(slip: Slip, value: &str, measure: &Measure) -> Slip {
    match likely::only_number(value, measure) {
        Some(Ok(mend)) => slip.with([mend]),
        Some(Err(other)) => other.at(value),
        None => slip,
    }
}

/// A slip of a number and the word behind it, with what was meant by both.
fn with_likely(slip: Slip, value: &str, measure: &Measure) -> Slip {
    match &*slip.what {
        What::Number(Number::UnknownUnit { .. }) => match likely::metres_and_rest(value, measure) {
            Some(mend) => slip.with([mend]),
            None => slip,
        },
        What::Number(Number::HasNoUnit(_)) if slip.mends.is_empty() => {
            let other = beside_words(slip.clone(), value, measure);
            let may_be_unit = matches!(&*other.what, What::Number(Number::Words(_)));
            match may_be_unit && !value.contains('(') {
                true => slip,
                false => other,
            }
        }
        _ => slip,
    }
}

/// A value that starts with no number.
fn in_words(value: &str, measure: &Measure) -> Slip {
    let angle = value.to_lowercase();
    let angle = angle.strip_prefix("tan").map(|angle| angle.trim_matches(['(', ')', ' ', '°']));
    let angle = angle.and_then(|angle| Decimal::read(angle.trim_end_matches(" deg")).ok());
    if let Some(slip) = angle.and_then(|angle| measure.instead(angle, "deg")) {
        return slip;
    }
    if measure.quantity == Quantity::Factor && name::is_blank(value) {
        return Slip::new(Number::Blank).with([Mend::plain("")]);
    }
    let is_0 = name::is_nothing(value)
        || match measure.quantity {
            Quantity::Eccentricity => name::is_axis(value),
            Quantity::Headroom => name::is_brim(value),
            _ => false,
        };
    let slip = Slip::new(Number::NotANumber(Some(measure.quantity))).at(value);
    match is_0 && measure.limits.0 == 0 {
        true => slip.with([Mend::plain((measure.show)(0))]),
        false => beside_words(slip, value, measure),
    }
}

/// Two values of a quantity whose mean is due.
fn are_extremes(tokens: &[Token], measure: &Measure) -> bool {
    let numbers = tokens.iter().filter(|token| matches!(token, Token::Number(_))).count();
    numbers == 2 && matches!(measure.quantity, Quantity::Friction | Quantity::Ratio)
}

/// Marks between thousands, as in 5'000.
const MARKS: [char; 4] = ['\'', '’', '_', '·'];

/// The first number with marks between its thousands.
fn apostrophes(value: &str) -> Option<Slip> {
    let is_part = |c: char| c.is_ascii_digit() || MARKS.contains(&c);
    let mut parts = value.split(|c: char| !is_part(c));
    let part = parts.find(|part| {
        let groups: Vec<&str> = part.split(MARKS).collect();
        groups.len() > 1 && in_thousands(&groups)
    })?;
    let slip = Slip::new(Number::Apostrophe).at(part).with([Mend::plain(part.replace(MARKS, ""))]);
    Some(within(slip, value, part))
}

fn one(number: &str, unit: Option<&str>, measure: &Measure) -> Result<u64, Slip> {
    let unit_behind = unit.map(|unit| format!(" {unit}")).unwrap_or_default();
    let written = format!("{number}{unit_behind}");
    if let Some(read) = measure.in_inches(&written) {
        return read;
    }
    // a comma, a sign or a letter is at fault without its unit
    let read = Decimal::read(number).map_err(|slip| inside(slip, number, unit, measure));
    let decimal = read.map_err(|slip| slip.between("", &unit_behind))?;
    if let Some(slip) = unit.and_then(|unit| measure.instead(decimal, unit)) {
        return Err(slip.at(written));
    }
    let power = measure.power(decimal, number, unit);
    let whole = power.and_then(|power| measure.whole(decimal, power, number));
    whole.map_err(|slip| match slip.part.is_empty() {
        true => slip.at(written),
        false => slip,
    })
}

/// Of what a number with a comma may mean, what is inside the limits with its unit: `9,000 kN/m3` is a decimal.
fn inside(slip: Slip, number: &str, unit: Option<&str>, measure: &Measure) -> Slip {
    let is_inside =
        |mend: &Mend| one(&mend.value, unit, measure).is_ok_and(|number| measure.is_inside(number));
    let decimal = number.split_once(',').filter(|(_, after)| *after == "000");
    let decimal = decimal.map(|(before, _)| Mend::new(format!("{before}.000"), Reading::Decimal));
    let kept: Vec<Mend> = slip.mends.iter().filter(|mend| is_inside(mend)).cloned().collect();
    match decimal.filter(is_inside) {
        Some(decimal) if kept.is_empty() => slip.with([decimal]),
        _ if kept.is_empty() => slip,
        _ => slip.with(kept),
    }
}

/// The mends of a part of a value as whole values; the part is a slice of the value.
fn within(slip: Slip, value: &str, part: &str) -> Slip {
    let start = part.as_ptr() as usize - value.as_ptr() as usize;
    slip.between(&value[..start], &value[start + part.len()..])
}
