//! Quantities between commas, and the two sides of a rectangle.

use super::{apostrophes, is_separator, one, tokens, within, Token, TIMES};
use crate::likely;
use crate::message::{List, Mend, Number, Reading, Slip, What};
use crate::number::{comma, in_thousands, Measure, Quantity};

/// `COUNT x NUMBER UNIT`, where the count and the unit may be left out.
struct Item<'a> {
    count: u64,
    number: &'a str,
    unit: Option<&'a str>,
}

/// Items between commas. A unit stands for the items before it that have none.
fn items<'a>(tokens: Vec<Token<'a>>, value: &'a str) -> Result<Vec<Item<'a>>, Slip> {
    let mut items = Vec::new();
    for part in tokens.split(|token| *token == Token::Separator) {
        items.push(item(part, value)?);
    }
    let mut following = None;
    for item in items.iter_mut().rev() {
        item.unit = item.unit.or(following);
        following = item.unit;
    }
    Ok(items)
}

/// The first number that has a comma between its digits.
fn with_comma<'a>(tokens: &[Token<'a>]) -> Option<&'a str> {
    tokens.iter().find_map(|token| match token {
        Token::Number(number) if number.contains(',') => Some(*number),
        _ => None,
    })
}

fn item<'a>(part: &[Token<'a>], value: &'a str) -> Result<Item<'a>, Slip> {
    if let Some(number) = with_comma(part) {
        return Err(within(comma(number, true), value, number));
    }
    let (count, rest) = match part {
        [Token::Number(count), Token::Times, rest @ ..] => {
            let whole = count.parse();
            (whole.map_err(|_| Slip::new(List::NotACount(count.to_string())))?, rest)
        }
        rest => (1, rest),
    };
    match rest {
        [Token::Number(number)] => Ok(Item { count, number, unit: None }),
        [Token::Number(number), Token::Word(unit)] => Ok(Item { count, number, unit: Some(unit) }),
        [] => Err(Slip::new(List::NumberMissing)),
        [Token::Number(first), Token::Number(second), ..] => {
            Err(comma_missing(first, second, value))
        }
        [Token::Word(word), ..] => Err(Slip::new(List::NotANumber(word.to_string()))),
        _ => Err(Slip::new(List::NotHeights)),
    }
}

/// Two numbers of a list with nothing but white space between them.
fn comma_missing(first: &str, second: &str, value: &str) -> Slip {
    let start = first.as_ptr() as usize - value.as_ptr() as usize;
    let end = second.as_ptr() as usize + second.len() - value.as_ptr() as usize;
    let joined = in_thousands(&[first, second]).then(|| Mend::plain(format!("{first}{second}")));
    let apart = Mend::new(format!("{first}, {second}"), Reading::Numbers(2));
    let missing = List::CommaMissing(first.to_string(), second.to_string());
    let slip = Slip::new(missing).with(joined.into_iter().chain([apart]));
    within(slip, value, &value[start..end])
}

/// The items with their own units, but a mend in place of one of them.
fn rebuilt(items: &[Item], at: usize, mend: &str, between: &str) -> String {
    let shown = items.iter().enumerate().map(|(i, item)| {
        let unit = item.unit.map(|unit| format!(" {unit}")).unwrap_or_default();
        let number = if i == at { mend.to_string() } else { format!("{}{unit}", item.number) };
        match item.count {
            1 => number,
            count => format!("{count} x {number}"),
        }
    });
    shown.collect::<Vec<String>>().join(between)
}

/// The number of an item; its mends are whole values.
fn one_of(items: &[Item], at: usize, value: &str, measure: &Measure) -> Result<u64, Slip> {
    let Item { number, unit, .. } = &items[at];
    let between = if value.contains([',', ';']) { ", " } else { " x " };
    one(number, *unit, measure).map_err(|slip| {
        let mends = slip.mends.iter().map(|mend| {
            let whole = match matches!(*slip.what, What::Number(Number::NoUnit(_))) {
                // a unit behind the last number is that of all before it
                true => format!("{value}{}", mend.value.trim_start_matches(number)),
                false => rebuilt(items, at, mend.whole(), between),
            };
            mend.clone().in_whole(whole)
        });
        let mends: Vec<Mend> = mends.collect();
        slip.with(mends)
    })
}

/// Most strakes of a wall, as the library has it.
pub const MOST_STRAKES: u64 = 24;

/// Words between a count and a height.
const BETWEEN: [&str; 13] = [
    "strakes", "strake", "rings", "ring", "courses", "course", "sheets", "viroles", "virole", "of",
    "at", "de", "fois",
];

/// Counts and heights of strakes in another order than count x height.
fn misplaced(value: &str, measure: &Measure) -> Option<Slip> {
    if measure.quantity != Quantity::StrakeHeight {
        return None;
    }
    let is_count = |count: &str| count.parse().is_ok_and(|n: u64| (1..=MOST_STRAKES).contains(&n));
    let is_height = |height: &str, unit| {
        let height = one(height, Some(unit), measure);
        height.is_ok_and(|n| (measure.limits.0..=measure.limits.1).contains(&n))
    };
    let first = |count: &str, height: &str, unit: &str, what: List| {
        let mend = Mend::plain(format!("{count} x {height} {unit}"));
        Some(Slip::new(what).with([mend]))
    };
    match tokens(value)[..] {
        [Token::Number(count)] if is_count(count) => {
            Some(Slip::new(List::CountOrHeight(count.parse().unwrap_or(0))))
        }
        [Token::Number(a), Token::Times, Token::Number(b), Token::Word(unit)]
            if !is_count(a) && is_count(b) && is_height(a, unit) =>
        {
            first(b, a, unit, List::HeightFirst)
        }
        [Token::Number(a), Token::Word(unit), Token::Times, Token::Number(b)]
            if is_count(b) && is_height(a, unit) =>
        {
            first(b, a, unit, List::HeightFirst)
        }
        [Token::Number(a), Token::Word(of), Token::Number(b), Token::Word(unit)]
        | [Token::Number(a), Token::Word(of), Token::Word("of" | "at" | "de"), Token::Number(b), Token::Word(unit)]
            if BETWEEN.contains(&of) && is_count(a) && is_height(b, unit) =>
        {
            first(a, b, unit, List::NotHeights)
        }
        [Token::Number(a), Token::Number(b), Token::Word(unit)]
            if is_count(a)
                && is_height(b, unit)
                && !is_height(a, unit)
                && !is_height(&format!("{a}{b}"), unit) =>
        {
            first(a, b, unit, List::NotHeights)
        }
        _ => None,
    }
}

/// `2000 x 3, 1500 x 5 mm`: a height before its count in every item.
fn turned_round(value: &str, measure: &Measure) -> Option<Slip> {
    let is_strakes = measure.quantity == Quantity::StrakeHeight;
    let items = items(tokens(value), value).ok().filter(|items| is_strakes && items.len() > 1)?;
    let turned = items.iter().map(|item| {
        let height = item.count.to_string();
        let unit = item.unit?;
        let count: u64 = item.number.parse().ok()?;
        let is_height = one(&height, Some(unit), measure).is_ok_and(|n| measure.is_inside(n));
        let is_turned = is_height && item.count > MOST_STRAKES && count <= MOST_STRAKES;
        is_turned.then(|| format!("{count} x {height} {unit}"))
    });
    let turned = turned.collect::<Option<Vec<String>>>()?;
    Some(Slip::new(List::HeightFirst).with([Mend::plain(turned.join(", "))]))
}

/// A list of `COUNT x LENGTH`, at most `most` of them, with each length in feet and inches.
fn list_in_inches(value: &str, measure: &Measure, most: usize) -> Option<Result<Vec<u64>, Slip>> {
    let mut numbers = Vec::new();
    for part in value.split(is_separator) {
        let (count, length) = part.split_once(TIMES).unwrap_or(("1", part));
        let count = count.trim().parse().ok().filter(|count| *count as u64 <= MOST_STRAKES)?;
        match measure.in_inches(length.trim())? {
            Ok(_) if count > most - numbers.len() => {
                return Some(Err(Slip::new(List::TooMany(most))))
            }
            Ok(number) => numbers.extend(std::iter::repeat_n(number, count)),
            Err(slip) => return Some(Err(within(slip, value, length.trim()))),
        }
    }
    Some(Ok(numbers)).filter(|numbers| numbers.as_ref().is_ok_and(|numbers| !numbers.is_empty()))
}

/// The quantities of a list, at most `most` of them, or what was meant by it.
pub fn list(value: &str, measure: &Measure, most: usize) -> Result<Vec<u64>, Slip> {
    let read = plain_list(value, measure, most);
    read.map_err(|slip| {
        let looked_at = match &*slip.what {
            What::List(slip) => slip.is_of_order(),
            What::Number(slip) => matches!(slip, Number::UnknownUnit { .. }),
            _ => false,
        };
        let other = looked_at.then(|| likely::other_list(value, measure, most)).flatten();
        let reads = |list: &str| plain_list(list, measure, most).is_ok();
        let unread = !slip.mends.iter().any(|mend| reads(mend.whole()));
        other.unwrap_or_else(|| match decimals(value).filter(|_| unread) {
            Some(mended) if reads(&mended) => slip.with([Mend::plain(mended)]),
            _ => slip,
        })
    })
}

/// `2,0; 1,5 m`: commas inside the numbers, and semicolons between them.
fn decimals(value: &str) -> Option<String> {
    let mended = value.replace(',', ".").replace(';', ",");
    Some(mended).filter(|_| value.contains(',') && value.contains(';'))
}

/// The same, as it stands.
pub fn plain_list(value: &str, measure: &Measure, most: usize) -> Result<Vec<u64>, Slip> {
    if value.is_empty() {
        return Err(Slip::new(List::NoValue));
    }
    if let Some(read) = list_in_inches(value, measure, most) {
        return read;
    }
    let misplaced = || misplaced(value, measure).or_else(|| turned_round(value, measure));
    if let Some(slip) = apostrophes(value).or_else(misplaced) {
        return Err(slip);
    }
    let mut numbers = Vec::new();
    let items = items(tokens(value), value)?;
    for (at, item) in items.iter().enumerate() {
        let number = one_of(&items, at, value, measure)?;
        let room = (most - numbers.len()) as u64;
        if item.count > room {
            return Err(Slip::new(List::TooMany(most)));
        }
        numbers.extend(std::iter::repeat_n(number, item.count as usize));
    }
    if numbers.is_empty() {
        return Err(Slip::new(List::Empty));
    }
    Ok(numbers)
}

/// Two sides, `A x B UNIT`, or what was meant by them.
pub fn pair(value: &str, measure: &Measure) -> Result<(u64, u64), Slip> {
    const BETWEEN: [&str; 5] = [" by ", " par ", "/", " and ", " et "];
    plain_pair(value, measure).map_err(|slip| {
        let mut mends = BETWEEN.iter().filter_map(|between| {
            let (a, b) = value.split_once(between)?;
            let mended = format!("{} x {}", a.trim(), b.trim());
            plain_pair(&mended, measure).is_ok().then(|| Mend::plain(mended))
        });
        match mends.next() {
            Some(mend) => Slip::new(List::NotTwoSides).with([mend]),
            None => slip,
        }
    })
}

/// Both sides in feet and inches.
fn pair_in_inches(value: &str, measure: &Measure) -> Option<Result<(u64, u64), Slip>> {
    let (a, b) = value.split_once(TIMES)?;
    let first = measure.in_inches(a.trim())?.map_err(|slip| slip.between("", &format!(" x{b}")));
    let second = measure.in_inches(b.trim())?.map_err(|slip| slip.between(&format!("{a}x "), ""));
    Some(first.and_then(|first| Ok((first, second?))))
}

/// The same, as it stands.
fn plain_pair(value: &str, measure: &Measure) -> Result<(u64, u64), Slip> {
    let apart = |token| if token == Token::Times { Token::Separator } else { token };
    if let Some(slip) = apostrophes(value) {
        return Err(slip);
    }
    if let Some(sides) = pair_in_inches(value, measure) {
        return sides;
    }
    let tokens = tokens(value);
    if let Some(number) = with_comma(&tokens) {
        let unit = tokens.iter().rev().find_map(|token| match token {
            Token::Word(unit) => Some(*unit),
            _ => None,
        });
        let slip = one(number, unit, measure).err().unwrap_or_else(|| comma(number, false));
        let mends: Vec<Mend> = slip.mends.iter().cloned().map(Mend::alone).collect();
        return Err(within(slip.with(mends), value, number));
    }
    match items(tokens.into_iter().map(apart).collect(), value).as_deref() {
        Ok(sides @ [_, _]) => {
            let side = |at| one_of(sides, at, value, measure);
            Ok((side(0)?, side(1)?))
        }
        _ => Err(Slip::new(List::NotTwoSides)),
    }
}
