//! The words of every message, in English.

use super::slip::{
    Bytes, Choice, Depths, Elsewhere, Hopper, Limit, Line, List, Number, Product, Record, Size,
    What,
};
use super::{Mend, Reading, Slip};
use crate::name::{self, Name};
use crate::number::{degrees, hundredths, Quantity};

/// What is wrong, and the mend.
pub fn of(slip: &Slip) -> String {
    let mends = &slip.mends[..];
    let words = match &*slip.what {
        What::Number(what) => number(what, mends),
        What::List(what) => list(what, mends),
        What::Depths(what) => depths(what, mends),
        What::Choice(what) => choice(what, mends),
        What::Line(what) => line_words(what, mends),
        What::Product(what) => product(what),
        What::Hopper(what) => hopper(what, mends),
        What::Limit(what) => limit(what, mends),
        What::Bytes(what) => bytes(what),
    };
    match slip.more {
        0 => words,
        more => format!("{words} ({more} more like this)"),
    }
}

/// Behind the words about a value that cannot be read.
pub fn limits(limits: &str) -> String {
    format!("; it must be {limits}")
}

pub fn line(number: usize) -> String {
    format!("line {number}")
}

pub fn refused(number: u32, meaning: &str) -> String {
    format!("refused, {number}: {meaning}")
}

/// Before limits that the library has not come to.
pub const ALSO: &str = "also, as this program reads the rules (the library stops at the first):";
pub const UNREADABLE_FILE: &str = "the file cannot be read";
pub const UNREADABLE_TEXT: &str = "the text cannot be read";

/// Of a silo that has loads.
pub const ACCEPTED: &str = "accepted; silo loads gives its loads";
/// Of a sheet of a concrete or stiffened circle.
pub const UNSAID: &str = "note: a sheet does not say that the wall is concrete or stiffened; read from it, p_p is spread round a thin shell\n";
/// Before the lines of a text.
pub const UNDERSTOOD: &str = "line  name                  as understood";

/// A value that cannot be read.
pub fn not_understood(written: &str) -> String {
    format!("not understood: {written}")
}

/// Messages that are not shown.
pub fn more(count: usize) -> String {
    format!("{count} more")
}

/// What cannot be judged yet: lines that other numbers are measured by.
pub fn later(at_fault: &[Name]) -> String {
    let words = at_fault.iter().map(|name| match name {
        Name::Diameter => "the diameter or sides",
        Name::Strakes => "the strakes",
        Name::Headroom => "the headroom",
        _ => "the hopper",
    });
    let words = words.collect::<Vec<&str>>().join(" and ");
    format!("limits measured by {words} are judged after the mend")
}

/// A quantity with its article.
fn quantity(quantity: Quantity) -> &'static str {
    match quantity {
        Quantity::Length | Quantity::Eccentricity | Quantity::Headroom => "a length",
        Quantity::StrakeHeight => "a strake's height",
        Quantity::Weight => "a weight",
        Quantity::Angle => "an angle",
        Quantity::Ratio => "a ratio",
        Quantity::Friction => "a friction",
        Quantity::Factor => "a factor",
    }
}

/// Words as a sentence has them: "mm, cm or m".
fn one_of(words: &[&str]) -> String {
    match words.split_last() {
        Some((last, [])) => last.to_string(),
        Some((last, others)) => format!("{} or {last}", others.join(", ")),
        None => String::new(),
    }
}

fn words_of(names: &[Name], between: &str) -> String {
    names.iter().map(|name| name.word()).collect::<Vec<&str>>().join(between)
}

/// A mend with the reading that leads to it.
fn mend(mend: &Mend) -> String {
    let value = &mend.value;
    match mend.reading {
        Reading::Plain | Reading::Hundredths | Reading::OnePiece => value.clone(),
        Reading::ForPush => format!("{value}, careful for the push on wall and floor"),
        Reading::ForDrag => format!("{value}, careful for the drag on the wall"),
        Reading::ForFloor => format!("{value}, careful for the floor"),
        Reading::ForWall => format!("{value}, careful for the wall"),
        Reading::Vertical => format!("{value} if it was measured from the vertical"),
        Reading::Decimal => format!("{value} for a decimal"),
        Reading::Numbers(count) => format!("{value} for {count} numbers"),
        Reading::Slope(slope) => {
            format!("{value} ({}.{:04} degrees)", slope / 10_000, slope % 10_000)
        }
    }
}

/// "; write A or B", or nothing where there is no mend.
fn write(mends: &[Mend]) -> String {
    let shown: Vec<String> = mends.iter().map(mend).collect();
    let shown: Vec<&str> = shown.iter().map(String::as_str).collect();
    let plain = mends.iter().all(|mend| mend.reading == Reading::Plain);
    match (&shown[..], plain) {
        ([], _) => String::new(),
        (shown, true) => format!("; write {}", one_of(shown)),
        (shown, false) => format!("; write {}", shown.join(", or ")),
    }
}

fn did_you_mean(mends: &[Mend]) -> String {
    match mends {
        [] => String::new(),
        mends => {
            let words: Vec<String> = mends.iter().map(mend).collect();
            format!("; did you mean {}?", words.join(" or "))
        }
    }
}

fn number(what: &Number, mends: &[Mend]) -> String {
    match what {
        Number::TwoNumbers => {
            let mend = mends.iter().map(|mend| without_space(&mend.value)).collect::<String>();
            format!("two numbers where one is due{mend}")
        }
        Number::Comma(groups) if mends.is_empty() => {
            format!("{groups} numbers where one is due")
        }
        Number::NoUnit(units) if mends.is_empty() => {
            format!("no unit; its units are {}", one_of(units))
        }
        Number::Blank => found(what),
        Number::Mass(newtons) => mass(*newtons, mends),
        Number::MeanWeight => format!("a mean; {}", upper_weight(mends)),
        what => found(what) + &write(mends),
    }
}

/// What is wrong with a number, before the mend.
fn found(what: &Number) -> String {
    let words = match what {
        Number::NoValue(due) => return format!("no value; {} is due", quantity(*due)),
        Number::NotANumber(Some(due)) => return format!("not a number; {} is due", quantity(*due)),
        Number::HasNoUnit(due) => return format!("{} has no unit", quantity(*due)),
        Number::UnknownUnit { unit, quantity: due, units } => {
            let units = one_of(units);
            return format!("unknown unit {unit}; {} is in {units}", quantity(*due));
        }
        Number::Extremes => return format!("two values; {}", mean("the mean is due")),
        Number::Extreme => return format!("a low or a high value; {}", mean("the mean is due")),
        Number::Words(words) => {
            return format!("words beside the number that are not read: {words}")
        }
        Number::TooLarge(most) => return format!("over {most}, the most that a sheet can say"),
        Number::Inches(mm) => return format!("{mm} mm, and a sheet holds whole mm"),
        Number::Angle(Some(tangent)) => {
            return format!("an angle; its tangent is {tangent}, and {}", mean("the mean is due"))
        }
        Number::Angle(None) => "an angle; a friction is its tangent",
        Number::NotANumber(None) => "not a number",
        Number::NotOneNumber => "not one number with its unit",
        Number::Range => "a range where one number is due",
        Number::Blank => {
            "no number; beside a product leave the line out, else leave nothing behind the sign"
        }
        Number::Negative => "negative; a sheet holds numbers from 0 up",
        Number::TooManyDigits => "more digits than a sheet holds",
        Number::Comma(_) => "a comma between digits",
        Number::NoUnit(_) => "no unit",
        Number::InThousands => "some read it in thousands",
        Number::Finer => "finer than a sheet can say",
        Number::Apostrophe => "a mark between digits",
        Number::NoSlope => "no slope; an angle between the horizontal and the wall is due",
        Number::Radius => "a radius; the diameter is twice as much",
        Number::TwoNumbers | Number::Mass(_) | Number::MeanWeight => "",
    };
    words.to_string()
}

/// Which friction or ratio the text has.
fn mean(is_due: &str) -> String {
    format!("{is_due}, of which the program makes the low and the high one itself")
}

/// The same of a low or a high one under a name of its own.
fn mean_alone(name: Name) -> String {
    let mean = mean(&format!("{} is the mean", name.word()));
    format!("{mean}, 0.9 and 1.15 times as much, each where it is due (7.1 to 7.3)")
}

/// The weight of a mass, N/m³; the mend is raised.
fn mass(newtons: u64, mends: &[Mend]) -> String {
    let weight = format!("its weight is 9.81 m/s2 times as much, {newtons} N/m3");
    format!("a mass; {weight}; {}", upper_weight(mends))
}

/// Which weight the text has; the mend is raised.
fn upper_weight(mends: &[Mend]) -> String {
    let table = "table 7.1's weights are upper limits (7.2)";
    let mean = "a measured mean is to be raised by at least 1.15 (7.3.1)";
    let row = "; beside a product of that table the greater of the two is due";
    let row = if mends.is_empty() { "" } else { row };
    format!("{table}, and {mean}{}{row}", write(mends))
}

fn without_space(joined: &str) -> String {
    format!("; write {joined} without a space if it is one")
}

fn list(what: &List, mends: &[Mend]) -> String {
    match what {
        List::NoValue => "no value; a list is due".to_string(),
        List::NumberMissing => "a number is missing before or after a comma".to_string(),
        List::CommaMissing(first, second) => {
            let joined = mends.iter().find(|mend| mend.reading == Reading::Plain);
            let joined = joined.map(|mend| format!(", or a space is too much in {}", mend.value));
            let missing = format!("a comma is missing between {first} and {second}");
            missing + &joined.unwrap_or_default()
        }
        List::NotANumber(word) => format!("{word} is not a number"),
        List::NotHeights if mends.is_empty() => {
            "no list; write heights as 3 x 1200, 900 mm".to_string()
        }
        List::NotHeights => format!("no list{}", write(mends)),
        List::Words(words) => format!("words behind the list that are not read: {words}"),
        List::CountOrHeight(number) => format!(
            "a count without a height, or a height without a unit; {number} strakes are written {number} x 1200 mm with their own height"
        ),
        List::BottomFirst => format!("strakes are listed top first{}", write(mends)),
        List::HeightFirst => format!("the count stands before the height{}", write(mends)),
        List::NotACount(count) => format!("{count} is not a count"),
        List::TooMany(most) => format!("more than {most} numbers, which a sheet cannot hold"),
        List::Empty => "a list of no numbers".to_string(),
        List::NotTwoSides if mends.is_empty() => {
            "two sides are due, such as 4000 x 6000 mm".to_string()
        }
        List::NotTwoSides => format!("two sides are due{}", write(mends)),
    }
}

fn depths(what: &Depths, mends: &[Mend]) -> String {
    match what {
        Depths::NotDepths if !mends.is_empty() => format!("not depths{}", did_you_mean(mends)),
        Depths::NotDepths => {
            "not depths; write a list such as 0, 500, 1000 mm, or every 500 mm, or strake edges"
                .to_string()
        }
        Depths::Range => format!("a range; steps go from the brim to the foot{}", write(mends)),
        Depths::NoStep => "a step of 0; write a step such as every 500 mm".to_string(),
        Depths::StepTooLong { step, foot } => {
            let meant = did_you_mean(mends);
            format!("a step of {step} mm is greater than the wall's {foot} mm{meant}")
        }
        Depths::StrakesFirst(count) => {
            format!("{count} strakes; a wall has 1 to 24; mend strakes first")
        }
        Depths::HeightsFirst { strake, height } => {
            let limits = "a strake is 200 to 3000 mm high; mend strakes first";
            format!("strake {strake} = {height} mm; {limits}")
        }
        Depths::TooMany { most, foot } => {
            format!("over {most} depths down a wall of {foot} mm{} or more", write(mends))
        }
    }
}

fn choice(what: &Choice, mends: &[Mend]) -> String {
    match what {
        Choice::Product(names) => {
            let hint = match mends {
                [] => format!(
                    "; it has {}; any other by its weight, ratio, friction and factor in place of product",
                    names.join(", ")
                ),
                mends => did_you_mean(mends),
            };
            format!("no product of the catalogue (table 7.1){hint}")
        }
        Choice::Wall if !mends.is_empty() => {
            format!("the wall is steel, concrete or corrugated{}", did_you_mean(mends))
        }
        Choice::Wall => {
            let other = "on any other, such as a smoother sheet, the friction is not table 7.1's";
            let mend = "a lower one gives more push: leave the line out and";
            format!("the wall is steel, concrete or corrugated; {other}, and {mend} {OWN_FRICTION}")
        }
        Choice::Floor => "write flat, or hopper height and hopper run in two lines".to_string(),
        Choice::YesOrNo => format!("neither yes nor no{}", did_you_mean(mends)),
    }
}

fn elsewhere(elsewhere: Elsewhere) -> String {
    let words = match elsewhere {
        Elsewhere::Height | Elsewhere::OtherHeight(_) | Elsewhere::UnknownHeight => {
            return height(elsewhere)
        }
        Elsewhere::Level | Elsewhere::OtherLevel(_) | Elsewhere::UnknownLevel => {
            return level(elsewhere)
        }
        Elsewhere::InternalFriction | Elsewhere::GreaterFactor(_) | Elsewhere::UnknownAngle => {
            return internal_friction(elsewhere)
        }
        Elsewhere::MeanFriction => return mean_alone(Name::Friction),
        Elsewhere::MeanRatio => return mean_alone(Name::Ratio),
        Elsewhere::Width => "write diameter = 5000 mm or sides = 4000 x 6000 mm",
        Elsewhere::Radius => "a circle is said by its diameter, twice the radius",
        Elsewhere::CountOfStrakes => "count and height stand in one line, as strakes = 8 x 1200 mm",
        Elsewhere::TopFirst => "strakes are listed top first; write strakes and turn the list round",
        Elsewhere::Nothing => "no load rests on it; leave the line out, or write it behind #",
        Elsewhere::NoHopper => "without a hopper write floor = flat",
        Elsewhere::Bottom => "write floor = flat, or a hopper by hopper height and hopper run",
        Elsewhere::Heap => {
            "grain is taken as level: raked flat, at the brim or below it by a line headroom; a heap that would lie above the brim is not covered, and without it the loads are too low"
        }
        Elsewhere::PartialFactor => {
            "loads are characteristic values without partial factors, which come after them; factor is the product's C0; leave the line out"
        }
        Elsewhere::MeanWeight => {
            "weight is an upper limit (7.2, 1); a measured mean is to be raised by at least 1.15 (7.3.1, 3)"
        }
        Elsewhere::FromVertical => {
            "hopper angle is from the horizontal: 90 degrees less the one from the vertical"
        }
    };
    words.to_string()
}

fn height(elsewhere: Elsewhere) -> String {
    let sum = "the wall's height is the sum of its strakes";
    match elsewhere {
        Elsewhere::OtherHeight(wall) => format!("{sum}, and that is {wall} mm; which is right?"),
        Elsewhere::UnknownHeight => sum.to_string(),
        _ => format!("{sum}; leave the line out"),
    }
}

fn level(elsewhere: Elsewhere) -> String {
    let level = "the grain is taken as level with the brim, or below it by a line headroom";
    match elsewhere {
        Elsewhere::OtherLevel(grain) => format!(
            "the grain's height is the wall's less the headroom, and that is {grain} mm; which is right?"
        ),
        Elsewhere::UnknownLevel => level.to_string(),
        _ => format!("{level}; leave the line out"),
    }
}

fn internal_friction(elsewhere: Elsewhere) -> String {
    let angle = "the angle of internal friction is not the friction on the wall; it gives the factor C0 (7.4)";
    match elsewhere {
        Elsewhere::GreaterFactor(factor) => {
            format!("{angle}: write factor = {}", hundredths(factor))
        }
        Elsewhere::UnknownAngle => {
            format!("{angle}, 1.35 and 0.02 more for each degree over 30")
        }
        _ => format!("{angle}, which is there and no smaller; leave the line out"),
    }
}

/// What says the same as a name that is unknown.
fn known_name(says: Option<Elsewhere>, mends: &[Mend]) -> String {
    let names: Vec<Name> = mends.iter().filter_map(|mend| mend.name).collect();
    match (says, &names[..]) {
        (Some(says), _) => {
            let diameter = mends.iter().filter(|mend| mend.name == Some(Name::Diameter));
            let diameter = diameter.map(|mend| format!("; write diameter = {}", mend.value));
            elsewhere(says) + &diameter.collect::<String>()
        }
        (None, []) => name::all(),
        (None, names) => format!("did you mean {}?", words_of(names, " or ")),
    }
}

fn line_words(what: &Line, mends: &[Mend]) -> String {
    match what {
        Line::Missing(names) => missing(names),
        Line::UnknownName { elsewhere } => {
            format!("unknown name; {}", known_name(*elsewhere, mends))
        }
        Line::Comment => "a comment starts with #".to_string(),
        Line::NoName => "no name before the equals sign".to_string(),
        Line::NoEqualsSign => {
            let mend = mends.iter().find_map(|mend| Some((mend.name?.word(), &mend.value)));
            let mend = mend.map(|(name, value)| format!("write {name} = {value}"));
            let mend = mend.as_deref().map_or(A_LINE, str::trim_end);
            format!("no equals sign; {mend}")
        }
        Line::Twice { name, first } => {
            format!("{} stands twice, first in line {first}", name.word())
        }
        Line::Beside { after, before, one, other } => {
            let [one, other] = [one, other].map(|names| words_of(names, " and "));
            format!("{} beside {}: write {one}, or {other}", after.word(), before.word())
        }
        Line::LabelTooLong { name, length, most } => {
            let word = name.word();
            format!("{word}: {length} characters; a {word} has at most {most}")
        }
        Line::Unseen { character, at } => {
            let code = *character as u32;
            format!("character {at} of the line does not show, U+{code:04X}; take it out")
        }
    }
}

const A_LINE: &str = "a line is name = value unit, such as diameter = 5000 mm";

/// No line for any of some names.
fn missing(names: &[Name]) -> String {
    let due = words_of(names, " or ");
    let own = match names {
        [name] => own(*name),
        _ => None,
    };
    let limits = match names {
        [name] if !name.limits().is_empty() && *name != Name::Factor => limits(name.limits()),
        _ => String::new(),
    };
    let add = match own {
        _ if names == [Name::Friction] => OWN_FRICTION.to_string(),
        Some(own) => format!("add a line {due} = {own}{limits}"),
        None => {
            let examples: Vec<&str> = names.iter().map(|name| name.example()).collect();
            format!("add a line such as {}{limits}", examples.join(" or "))
        }
    };
    format!("no line for {due}; {add}")
}

/// What a line has behind its sign, where an example would be a number of anybody's.
fn own(name: Name) -> Option<&'static str> {
    match name {
        Name::Weight => Some(
            "with the upper limit of this grain's weight (7.2), or product = with its name in place of the four numbers",
        ),
        Name::Ratio => Some(
            "with your own value for this grain, or product = with its name in place of the four numbers",
        ),
        Name::Factor => Some(
            "left blank, which is taken as 1.55 (7.4 at 40 degrees), or with the product's own, 1.00 to 2.00",
        ),
        Name::Strakes => {
            Some("with the height of each, top first, and COUNT x HEIGHT for equal ones")
        }
        Name::FillingEccentricity | Name::OutletEccentricity => {
            Some("with the distance from the axis, 0 mm if it is on the axis")
        }
        _ => None,
    }
}

const OWN_FRICTION: &str =
    "add a line friction = with your own value, 0.10 to 1.00, for this grain on this wall";

fn product(what: &Product) -> String {
    match what {
        Product::NoWall => {
            let walls = "add wall = steel or wall = concrete; for a corrugated wall";
            format!("no line for wall; {walls} {OWN_FRICTION}")
        }
        Product::NoFriction => {
            let table = "table 7.1 has frictions for smooth steel and for concrete, and none";
            format!("{table} for corrugated walls (its note 4); {OWN_FRICTION}")
        }
        Product::BesideItsNumbers => {
            let mend = "leave out product, or the numbers that are table 7.1's";
            format!("product beside all four of its numbers: {mend}")
        }
        Product::BlankBesideProduct(name) => {
            let mend = match name {
                Name::Friction => "write your own, or leave the line out on steel or concrete",
                _ => "write your own, or leave the line out to take table 7.1's",
            };
            format!("{} is blank or 0 beside product; {mend}", name.word())
        }
        Product::Refused(meaning) => meaning.to_string(),
    }
}

fn hopper(what: &Hopper, mends: &[Mend]) -> String {
    match what {
        Hopper::TooMuch(names) => {
            let enough = if names.len() == 2 { "one of the two" } else { "two of the three" };
            format!("{} together: write {enough}", words_of(names, " and "))
        }
        Hopper::OutletTooWide(width) => {
            format!("it must be under the diameter or shorter side, {width} mm")
        }
        Hopper::NoOutlet => "it must be over 0".to_string(),
        Hopper::HalfMillimetre { width, twice } => format!(
            "of {width} mm it leaves a run of {}.5 mm, which a sheet cannot say{}",
            twice / 2,
            write(mends)
        ),
        Hopper::NotExact { .. } | Hopper::Outside { .. } => by_angle(what, mends),
    }
}

/// A hopper that its angle does not say exactly, or not within the limits.
fn by_angle(what: &Hopper, mends: &[Mend]) -> String {
    let (vertical, beside): (Vec<&Mend>, Vec<&Mend>) =
        mends.iter().partition(|mend| mend.reading == Reading::Vertical);
    let vertical = from_vertical(&vertical);
    match what {
        Hopper::NotExact { known: (name, size), unknown, angle } => {
            let beside: Vec<String> = beside.into_iter().map(mend).collect();
            let beside = format!("{} = {}", unknown.word(), beside.join(" or "));
            let angle = format!("{} from the horizontal", degrees(*angle));
            let with = format!("with a {} of {size} mm", name.word());
            format!(
                "{with} no whole mm gives {angle} exactly; in its place write {beside}{vertical}"
            )
        }
        Hopper::Outside { known: (name, size), unknown: (unknown, near), limit } => {
            let unknown = unknown.word().trim_start_matches("hopper ");
            let needs = format!("it needs a {unknown} of about {near} mm");
            let with = format!("from the horizontal, with a {} of {size} mm", name.word());
            format!("{with}, {needs}, but {}{vertical}", hopper_limit(limit))
        }
        _ => String::new(),
    }
}

/// The other reading of a hopper's angle.
fn from_vertical(mends: &[&Mend]) -> String {
    mends.iter().map(|vertical| format!("; {}", mend(vertical))).collect()
}

/// The same limits as the library's, of a hopper that is not written yet.
fn hopper_limit(limit: &Limit) -> String {
    match limit {
        Limit::RunTooWide(width) => format!("twice the run must be under {width} mm"),
        Limit::NoRun => "the run must be at least 1 mm".to_string(),
        Limit::HopperTooHigh => "the height must be at most 25000 mm".to_string(),
        _ => "a slope of 20 degrees or less is a flat floor".to_string(),
    }
}

fn size(size: Size) -> &'static str {
    match size {
        Size::Diameter => "the diameter",
        Size::SideA => "side a",
        Size::SideB => "side b",
        Size::Weight => "the weight",
        Size::Ratio => "the ratio Ks",
        Size::Friction => "wall friction",
        Size::Factor => "the factor C0",
        Size::Height => "the height",
    }
}

fn limit(what: &Limit, mends: &[Mend]) -> String {
    match what {
        Limit::Outside { size, is_0, limits, strakes } => {
            outside(*size, *is_0, limits, *strakes, mends)
        }
        Limit::Strakes { count, too_high } => {
            let mend = match too_high {
                true => "so it is at most 72000 mm high",
                false => "take higher strakes",
            };
            format!("{count} strakes; a wall has 1 to 24; {mend}")
        }
        Limit::Depths { count, step } => {
            let step = step.map(|step| format!(" (every {step} mm or more)"));
            let mend = "a sheet has 1 to 200; list fewer or take a larger step";
            format!("{count} depths; {mend}{}", step.unwrap_or_default())
        }
        Limit::Unequal { longer, shorter } => unequal(*longer, *shorter),
        Limit::Eccentricity(most) => {
            let limit = "it must be at most a quarter of the diameter or shorter side";
            format!("{limit}, {most} mm; more is not covered, and less in its place lowers p_p")
        }
        Limit::BelowFoot(foot) => {
            format!("below the wall's foot; it must be at most the sum of the strakes, {foot} mm")
        }
        Limit::NotRising(before) => format!("it follows {before} mm; depths must rise"),
        Limit::Rectangle(side) => {
            let loads = side.as_ref().map(|side| {
                let squares = format!("two opposite squares of s = {side} mm (5.10)");
                format!("; silo loads has a rectangle's p_p, which acts on {squares}")
            });
            format!("a circle is due{}", loads.unwrap_or_default())
        }
        Limit::Headroom { wall, good, higher } => headroom(*wall, *good, *higher, mends),
        Limit::TooSlender { .. } => slender(what),
        _ => bottom(what),
    }
}

fn outside(
    size: Size,
    is_0: bool,
    (from, to): &(String, String),
    strakes: Option<(usize, usize)>,
    mends: &[Mend],
) -> String {
    let what = self::size(size);
    let found = match is_0 {
        true => format!("{what} is missing or 0; it must be"),
        false => format!("{what} must be"),
    };
    let strakes = strakes.map(|(first, last)| format!(" (strakes {first} to {last})"));
    let is_product = matches!(size, Size::Weight | Size::Ratio | Size::Friction | Size::Factor);
    let not_covered = match is_product && !is_0 && mends.is_empty() {
        true => "; beyond that these rules do not hold, and the limit in its place may lower loads",
        false => "",
    };
    let more = meant(mends) + &strakes.unwrap_or_default();
    format!("{found} {from} to {to}{more}{not_covered}")
}

/// Other readings of a number that is outside its limits.
fn meant(mends: &[Mend]) -> String {
    let read = |readings: &[Reading]| -> Vec<Mend> {
        mends.iter().filter(|mend| readings.contains(&mend.reading)).cloned().collect()
    };
    let tangents = read(&[Reading::ForPush, Reading::ForDrag]);
    let mut words = match &read(&[Reading::Hundredths])[..] {
        [hundredths] if !tangents.is_empty() => {
            let mean = mean("the mean is due");
            let angle = format!("if it is an angle, its tangent, and {mean}");
            let hundredths = format!("; {} if it is in hundredths", hundredths.value);
            format!("{hundredths}; {angle}{}", write(&tangents))
        }
        hundredths => did_you_mean(hundredths),
    };
    words += &did_you_mean(&read(&[Reading::Plain]));
    for mend in read(&[Reading::OnePiece]) {
        words += &format!("; a wall in one piece is written as {}", mend.value);
    }
    words
}

fn unequal(longer: u32, shorter: u32) -> String {
    let (most, least) = (3 * shorter, longer.div_ceil(3));
    let bins = longer.div_ceil(most);
    let each = longer / bins;
    let found = format!("the longer, {longer} mm, is over three times the shorter, {shorter} mm");
    let mend = format!("shorten it to at most {most} mm, widen the shorter to at least {least} mm");
    let divided = format!("{bins} equal bins of at most {each} mm by {shorter} mm");
    format!(
        "{found}; {mend}, or divide it by cross walls into {divided}, each with a sheet of its own"
    )
}

fn bottom(limit: &Limit) -> String {
    match limit {
        Limit::NoRun => {
            "the run is 0; it must be at least 1 mm, or write floor = flat without a hopper"
                .to_string()
        }
        Limit::RunTooWide(width) => {
            let limit = "twice the run must be under the diameter or shorter side";
            format!("{limit}, {width} mm, so that an outlet is left")
        }
        Limit::TooFlat { run, least } => {
            let slope = format!("over a run of {run} mm the slope is under 20 degrees");
            format!("{slope}; the height must be at least {least} mm, or it is a flat floor")
        }
        _ => "it must be at most 25000 mm".to_string(),
    }
}

/// `good` are the headrooms that the library takes, and `higher` the headroom where a higher wall can have it.
fn headroom(wall: u64, good: Option<(u64, u64)>, higher: Option<u64>, mends: &[Mend]) -> String {
    let good = good.map(|good| match good {
        (0, most) => format!(": at most {most} mm"),
        (least, most) => format!(": {least} mm to {most} mm"),
    });
    let higher = higher.filter(|_| good.is_some());
    let higher = higher.map(|headroom| format!(", or strakes of more than {headroom} mm together"));
    let limit = format!("it must be under the sum of the strakes, {wall} mm");
    let meant = "; if the grain's height was meant, the headroom is the rest";
    let mend =
        good.unwrap_or_default() + &higher.unwrap_or_default() + meant + &did_you_mean(mends);
    format!("no grain is left at the wall; {limit}{mend}")
}

fn slender(limit: &Limit) -> String {
    let Limit::TooSlender { width, wall, headroom, hopper, least } = limit else {
        return String::new();
    };
    let height = wall.saturating_sub(*headroom) + hopper;
    let less = match headroom {
        0 => String::new(),
        _ => format!(" less headroom {headroom} mm"),
    };
    let made = format!("wall {wall} mm{less} and hopper {hopper} mm make h = {height} mm");
    let limit = format!("it must be under 10 times {width} mm, {} mm", 10 * width);
    let lower = if *hopper > 0 { "take off strakes or hopper" } else { "take off strakes" };
    let more = least
        .map(|least| format!(", leave a headroom of at least {least} mm that nobody can fill"));
    format!("{made}; {limit}; {lower}{} or take a wider silo", more.unwrap_or_default())
}

fn bytes(what: &Bytes) -> String {
    match what {
        Bytes::Unreadable(why) => why.clone(),
        Bytes::Foreign(what) => format!("this is {what}; save the silo as plain text"),
        Bytes::Output(what) => {
            format!("this is {what}; name the silo's text or sheet in its place")
        }
        Bytes::NotUtf8 => "not UTF-8 text; save the file as UTF-8".to_string(),
        Bytes::Control(byte) => format!(
            "control character {byte}; take it out, or save the file as plain text in UTF-8"
        ),
        Bytes::EmptyFile => "the file is empty".to_string(),
        Bytes::SheetTooLong(length) => format!("{length} bytes; a sheet has at most 1024"),
        Bytes::LeftOver { count, from } => format!("{count} bytes left over from byte {from} on"),
        Bytes::Record { record, at, fault } => {
            let last = match record + 1 == RECORDS.len() {
                true => "; without headroom a sheet ends before it",
                false => "",
            };
            format!("{} at byte {at}: {}{last}", self::record(*record), record_fault(fault))
        }
    }
}

/// The records of a sheet.
const RECORDS: [&str; 7] =
    ["circle or rectangle", "product", "filling", "bottom", "strakes", "depths", "headroom"];

fn record(record: usize) -> String {
    format!("record {} ({})", record + 1, RECORDS[record])
}

/// Where a number stands in a sheet.
pub fn byte(byte: usize, record: usize) -> String {
    format!("byte {byte}, {}", self::record(record))
}

fn record_fault(fault: &Record) -> String {
    match fault {
        Record::Header(left) => format!("a header has 4 bytes, and {left} are left"),
        Record::Kind { kind, due } => {
            let due: Vec<String> = due.iter().map(u16::to_string).collect();
            format!("kind {kind}, where kind {} is due", due.join(" or "))
        }
        Record::Length { length, kind } => {
            let lengths = match kind {
                1 | 8 => "4",
                2 | 4 | 5 => "8",
                3 => "10",
                6 => "2 for each of 1 to 24 strakes",
                _ => "4 for each of 1 to 200 depths",
            };
            format!("a payload of {length} bytes; kind {kind} has {lengths}")
        }
        Record::Payload { length, left } => {
            format!("a payload of {length} bytes, and {left} are left")
        }
    }
}
