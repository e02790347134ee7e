//! The slips that a message can be about, each with its data and its code.

use crate::name::Name;
use crate::number::Quantity;

#[derive(Clone, Debug, PartialEq, Eq)]
pub enum What {
    Number(Number),
    List(List),
    Depths(Depths),
    Choice(Choice),
    Line(Line),
    Product(Product),
    Hopper(Hopper),
    Limit(Limit),
    Bytes(Bytes),
}

impl What {
    /// A stable word for a program.
    pub fn code(&self) -> &'static str {
        match self {
            What::Number(slip) => slip.code(),
            What::List(slip) => slip.code(),
            What::Depths(slip) => slip.code(),
            What::Choice(slip) => slip.code(),
            What::Line(slip) => slip.code(),
            What::Product(slip) => slip.code(),
            What::Hopper(slip) => slip.code(),
            What::Limit(slip) => slip.code(),
            What::Bytes(slip) => slip.code(),
        }
    }

    /// The name of the line that is at fault or due, where it is one.
    pub fn name(&self) -> Option<Name> {
        match self {
            What::Line(Line::Missing(names)) => Some(names[0]).filter(|_| names.len() == 1),
            What::Line(Line::Twice { name, .. } | Line::LabelTooLong { name, .. }) => Some(*name),
            What::Line(Line::Beside { after, .. }) => Some(*after),
            What::Product(slip) => slip.name(),
            What::Hopper(Hopper::TooMuch(names)) => names.last().copied(),
            _ => None,
        }
    }

    /// A value could not be read, so that its line's limits are worth telling.
    pub fn is_of_value(&self) -> bool {
        matches!(self, What::Number(_) | What::List(_) | What::Depths(_) | What::Choice(_))
    }
}

macro_rules! from {
    ($($kind:ident),*) => {
        $(impl From<$kind> for What {
            fn from(slip: $kind) -> What {
                What::$kind(slip)
            }
        })*
    };
}
from!(Number, List, Depths, Choice, Line, Product, Hopper, Limit, Bytes);

/// One number with its unit.
#[derive(Clone, Debug, PartialEq, Eq)]
pub enum Number {
    NoValue(Quantity),
    NotANumber(Option<Quantity>),
    TwoNumbers,
    NotOneNumber,
    /// From one number to another.
    Range,
    /// A word for a factor that is left blank.
    Blank,
    Negative,
    TooManyDigits,
    /// A comma between so many groups of digits.
    Comma(usize),
    /// And the units that it may have.
    NoUnit(Vec<&'static str>),
    /// Two values of a quantity whose mean is due, or one that is said to be low or high.
    Extremes,
    Extreme,
    /// Of a weight, which is to be raised.
    MeanWeight,
    /// Half the diameter that is due.
    Radius,
    /// Words beside the number that may change it.
    Words(String),
    HasNoUnit(Quantity),
    UnknownUnit {
        unit: String,
        quantity: Quantity,
        units: Vec<&'static str>,
    },
    InThousands,
    Finer,
    /// Feet and inches that are so many mm, no whole number.
    Inches(String),
    /// Marks between thousands.
    Apostrophe,
    /// Over the most that a sheet can say.
    TooLarge(String),
    /// And its weight, N/m³
    Mass(u64),
    /// And its tangent, where a friction can be that.
    Angle(Option<String>),
    NoSlope,
}

impl Number {
    fn code(&self) -> &'static str {
        match self {
            Number::NoValue(_) => "no-value",
            Number::NotANumber(_) => "not-a-number",
            Number::TwoNumbers => "two-numbers",
            Number::NotOneNumber => "not-one-number",
            Number::Range => "range",
            Number::Blank => "blank",
            Number::Negative => "negative",
            Number::TooManyDigits => "too-many-digits",
            Number::Comma(_) => "comma",
            Number::NoUnit(_) => "no-unit",
            Number::Extremes | Number::Extreme => "mean-is-due",
            Number::MeanWeight => "mean-weight",
            Number::Radius => "radius",
            Number::Words(_) => "words-beside-number",
            Number::HasNoUnit(_) => "has-no-unit",
            Number::UnknownUnit { .. } => "unknown-unit",
            Number::InThousands => "in-thousands",
            Number::Finer => "finer-than-a-sheet",
            Number::Inches(_) => "inches",
            Number::Apostrophe => "apostrophe",
            Number::TooLarge(_) => "more-than-a-sheet",
            Number::Mass(_) => "mass",
            Number::Angle(_) => "angle",
            Number::NoSlope => "no-slope",
        }
    }
}

/// Numbers between commas.
#[derive(Clone, Debug, PartialEq, Eq)]
pub enum List {
    NoValue,
    NumberMissing,
    CommaMissing(String, String),
    NotANumber(String),
    NotHeights,
    /// Words behind the list that may change it.
    Words(String),
    /// A number that may be a count or a height.
    CountOrHeight(u64),
    /// A height before its count.
    HeightFirst,
    /// Listed from the bottom.
    BottomFirst,
    NotACount(String),
    /// More than a sheet can hold.
    TooMany(usize),
    Empty,
    NotTwoSides,
}

impl List {
    /// Words or signs stand where a list has none.
    pub fn is_of_order(&self) -> bool {
        use List::{CommaMissing, NotANumber, NotHeights, NumberMissing};
        matches!(self, NotHeights | NotANumber(_) | CommaMissing(..) | NumberMissing)
    }

    fn code(&self) -> &'static str {
        match self {
            List::NoValue => "no-value",
            List::NumberMissing => "number-missing",
            List::CommaMissing(..) => "comma-missing",
            List::NotANumber(_) => "not-a-number",
            List::NotHeights => "not-a-list",
            List::Words(_) => "words-beside-list",
            List::CountOrHeight(_) => "count-or-height",
            List::HeightFirst => "height-first",
            List::BottomFirst => "bottom-first",
            List::NotACount(_) => "not-a-count",
            List::TooMany(_) => "too-many-numbers",
            List::Empty => "empty-list",
            List::NotTwoSides => "not-two-sides",
        }
    }
}

/// Sizes in mm.
#[derive(Clone, Debug, PartialEq, Eq)]
pub enum Depths {
    NotDepths,
    /// From one depth to another.
    Range,
    NoStep,
    StepTooLong {
        step: u32,
        foot: u32,
    },
    /// So many strakes.
    StrakesFirst(usize),
    /// A strake, counted from 1, of a height that no strake has.
    HeightsFirst {
        strake: usize,
        height: u16,
    },
    TooMany {
        most: usize,
        foot: u32,
    },
}

impl Depths {
    fn code(&self) -> &'static str {
        match self {
            Depths::NotDepths => "not-depths",
            Depths::Range => "range-of-depths",
            Depths::NoStep => "no-step",
            Depths::StepTooLong { .. } => "step-too-long",
            Depths::StrakesFirst(_) | Depths::HeightsFirst { .. } => "strakes-first",
            Depths::TooMany { .. } => "too-many-depths",
        }
    }
}

/// One of a few words.
#[derive(Clone, Debug, PartialEq, Eq)]
pub enum Choice {
    /// And the names of the catalogue, where none is near.
    Product(Vec<&'static str>),
    Wall,
    Floor,
    YesOrNo,
}

impl Choice {
    fn code(&self) -> &'static str {
        match self {
            Choice::Product(_) => "unknown-product",
            Choice::Wall => "unknown-wall",
            Choice::Floor => "unknown-floor",
            Choice::YesOrNo => "neither-yes-nor-no",
        }
    }
}

/// What says here what a person writes under another name.
#[derive(Clone, Copy, Debug, PartialEq, Eq)]
pub enum Elsewhere {
    Height,
    /// The strakes make so many mm, and not what is said.
    OtherHeight(u64),
    UnknownHeight,
    Width,
    Radius,
    Bottom,
    NoHopper,
    /// The grain's height, up to the wall's.
    Level,
    /// Wall less headroom make so many mm, and more is said.
    OtherLevel(u64),
    UnknownLevel,
    /// Grain above the line where it meets the wall.
    Heap,
    MeanFriction,
    MeanRatio,
    /// A weight that is no upper limit.
    MeanWeight,
    InternalFriction,
    /// An angle that asks for a factor of so many hundredths.
    GreaterFactor(u64),
    UnknownAngle,
    PartialFactor,
    /// A hopper's angle that is not counted from the horizontal.
    FromVertical,
    /// Strakes by their number or their height alone.
    CountOfStrakes,
    /// A list that begins at the wall's foot.
    TopFirst,
    /// No load rests on it.
    Nothing,
}

impl Elsewhere {
    /// The name whose line is due in its place.
    pub fn name(self) -> Option<Name> {
        match self {
            Elsewhere::Radius => Some(Name::Diameter),
            Elsewhere::Bottom | Elsewhere::NoHopper => Some(Name::Floor),
            Elsewhere::MeanFriction => Some(Name::Friction),
            Elsewhere::MeanRatio => Some(Name::Ratio),
            Elsewhere::CountOfStrakes | Elsewhere::TopFirst => Some(Name::Strakes),
            Elsewhere::MeanWeight => Some(Name::Weight),
            Elsewhere::FromVertical => Some(Name::HopperAngle),
            Elsewhere::GreaterFactor(_) => Some(Name::Factor),
            _ => None,
        }
    }

    /// What other lines say decides whether it can be left out.
    pub fn is_judged(self) -> bool {
        matches!(self, Elsewhere::Height | Elsewhere::Level | Elsewhere::InternalFriction)
    }

    /// The line says nothing that is not said already.
    pub fn is_too_much(self) -> bool {
        use Elsewhere::{Height, InternalFriction, Level, Nothing, PartialFactor};
        matches!(self, Height | Level | Nothing | InternalFriction | PartialFactor)
    }
}

/// A line, or lines beside each other.
#[derive(Clone, Debug, PartialEq, Eq)]
pub enum Line {
    /// One of some names is due.
    Missing(Vec<Name>),
    UnknownName {
        elsewhere: Option<Elsewhere>,
    },
    /// A comment behind another sign than `#`.
    Comment,
    NoName,
    NoEqualsSign,
    /// It stands first in that line.
    Twice {
        name: Name,
        first: usize,
    },
    /// Two ways to say the same.
    Beside {
        after: Name,
        before: Name,
        one: Vec<Name>,
        other: Vec<Name>,
    },
    LabelTooLong {
        name: Name,
        length: usize,
        most: usize,
    },
    /// A character that does not show, so many characters from the line's start.
    Unseen {
        character: char,
        at: usize,
    },
}

impl Line {
    fn code(&self) -> &'static str {
        match self {
            Line::Missing(_) => "no-line",
            Line::UnknownName { .. } => "unknown-name",
            Line::Comment => "comment",
            Line::NoName => "no-name",
            Line::NoEqualsSign => "no-equals-sign",
            Line::Twice { .. } => "twice",
            Line::Beside { .. } => "one-of-two",
            Line::LabelTooLong { .. } => "label-too-long",
            Line::Unseen { .. } => "unseen-character",
        }
    }
}

/// The product's lines together.
#[derive(Clone, Debug, PartialEq, Eq)]
pub enum Product {
    NoWall,
    NoFriction,
    BesideItsNumbers,
    BlankBesideProduct(Name),
    Refused(&'static str),
}

impl Product {
    fn name(&self) -> Option<Name> {
        match self {
            Product::NoWall => Some(Name::Wall),
            Product::NoFriction => Some(Name::Friction),
            Product::BesideItsNumbers => Some(Name::Product),
            Product::BlankBesideProduct(name) => Some(*name),
            Product::Refused(_) => None,
        }
    }

    fn code(&self) -> &'static str {
        match self {
            Product::NoWall => "no-line",
            Product::NoFriction => "no-friction",
            Product::BesideItsNumbers => "product-and-numbers",
            Product::BlankBesideProduct(_) => "blank-beside-product",
            Product::Refused(_) => "no-such-row",
        }
    }
}

/// The hopper's lines together; sizes in mm.
#[derive(Clone, Debug, PartialEq, Eq)]
pub enum Hopper {
    /// So many of the names are enough.
    TooMuch(Vec<Name>),
    OutletTooWide(u32),
    NoOutlet,
    HalfMillimetre {
        width: u32,
        twice: u32,
    },
    /// No whole mm gives the angle, in thousandths of a degree; `known` is the size that has a line.
    NotExact {
        known: (Name, u32),
        unknown: Name,
        angle: u64,
    },
    /// A size that the library does not take.
    Outside {
        known: (Name, u32),
        unknown: (Name, u32),
        limit: Box<Limit>,
    },
}

impl Hopper {
    fn code(&self) -> &'static str {
        match self {
            Hopper::TooMuch(_) => "too-many-lines",
            Hopper::OutletTooWide(_) => "outlet-too-wide",
            Hopper::NoOutlet => "no-outlet",
            Hopper::HalfMillimetre { .. } => "half-a-millimetre",
            Hopper::NotExact { .. } => "not-exact",
            Hopper::Outside { limit, .. } => limit.code(),
        }
    }
}

/// A number that has limits.
#[derive(Clone, Copy, Debug, PartialEq, Eq)]
pub enum Size {
    Diameter,
    SideA,
    SideB,
    Weight,
    Ratio,
    Friction,
    Factor,
    Height,
}

/// Limits of the library; sizes in mm.
#[derive(Clone, Debug, PartialEq, Eq)]
pub enum Limit {
    /// A number, 0 where it is missing, and the strakes that have it, counted from 1.
    Outside {
        size: Size,
        is_0: bool,
        limits: (String, String),
        strakes: Option<(usize, usize)>,
    },
    /// So many strakes, on a wall that may be too high for any number of them.
    Strakes {
        count: usize,
        too_high: bool,
    },
    /// So many depths, and the least step that is none too many.
    Depths {
        count: usize,
        step: Option<u64>,
    },
    Unequal {
        longer: u32,
        shorter: u32,
    },
    /// The most.
    Eccentricity(u64),
    NoRun,
    RunTooWide(u64),
    HopperTooHigh,
    TooFlat {
        run: u64,
        least: u64,
    },
    /// A slope of 20 degrees or less.
    Flat,
    BelowFoot(u64),
    /// The depth before.
    NotRising(u32),
    /// A circle is due; s of the rectangle's patch in mm, where it has loads.
    Rectangle(Option<String>),
    Headroom {
        wall: u64,
        good: Option<(u64, u64)>,
        higher: Option<u64>,
    },
    TooSlender {
        width: u64,
        wall: u64,
        headroom: u64,
        hopper: u64,
        least: Option<u64>,
    },
}

impl Limit {
    fn code(&self) -> &'static str {
        match self {
            Limit::Outside { .. } => "outside-limits",
            Limit::Strakes { .. } => "too-many-strakes",
            Limit::Depths { .. } => "too-many-depths",
            Limit::Unequal { .. } => "unequal-sides",
            Limit::Eccentricity(_) => "too-eccentric",
            Limit::NoRun => "no-run",
            Limit::RunTooWide(_) => "run-too-wide",
            Limit::HopperTooHigh => "hopper-too-high",
            Limit::TooFlat { .. } | Limit::Flat => "hopper-too-flat",
            Limit::BelowFoot(_) => "below-the-foot",
            Limit::NotRising(_) => "depths-must-rise",
            Limit::Rectangle(_) => "rectangle",
            Limit::Headroom { .. } => "no-grain",
            Limit::TooSlender { .. } => "too-slender",
        }
    }
}

/// A file or a sheet of bytes.
#[derive(Clone, Debug, PartialEq, Eq)]
pub enum Bytes {
    /// It cannot be opened or read, as the system says.
    Unreadable(String),
    /// A file of another program.
    Foreign(&'static str),
    /// An output of this program.
    Output(&'static str),
    NotUtf8,
    Control(u8),
    EmptyFile,
    SheetTooLong(usize),
    /// So many bytes left over from a byte on.
    LeftOver {
        count: usize,
        from: usize,
    },
    /// A record, counted from 0, at a byte.
    Record {
        record: usize,
        at: usize,
        fault: Record,
    },
}

/// What is wrong with a record.
#[derive(Clone, Debug, PartialEq, Eq)]
pub enum Record {
    /// So many bytes are left for a header.
    Header(usize),
    Kind {
        kind: u16,
        due: &'static [u16],
    },
    Length {
        length: usize,
        kind: u16,
    },
    Payload {
        length: usize,
        left: usize,
    },
}

impl Bytes {
    fn code(&self) -> &'static str {
        match self {
            Bytes::Unreadable(_) => "unreadable",
            Bytes::Foreign(_) => "foreign-file",
            Bytes::Output(_) => "output-file",
            Bytes::NotUtf8 => "not-utf-8",
            Bytes::Control(_) => "control-character",
            Bytes::EmptyFile => "empty-file",
            Bytes::SheetTooLong(_) => "sheet-too-long",
            Bytes::LeftOver { .. } => "bytes-left-over",
            Bytes::Record { fault: Record::Header(_) | Record::Payload { .. }, .. } => "cut-short",
            Bytes::Record { fault: Record::Kind { .. }, .. } => "wrong-kind",
            Bytes::Record { fault: Record::Length { .. }, .. } => "wrong-length",
        }
    }
}
