//! Where in a sheet a refusal comes from. The library has refused by then; nothing here decides.

use crate::description::{Description, Section};
use crate::library::Refusal;
use crate::message::{words, Limit, Mend, Reading, Size, Slip, What};
use crate::name::Name;
use crate::number::{
    hundredths, millimetres, newtons, tenths, Measure, FACTOR, FRICTION, RATIO, SIDE, STRAKE,
    WEIGHT,
};
use crate::text::runs;
use std::ops::{Range, RangeInclusive};

/// A number of a sheet, or a whole list.
#[derive(Clone, Copy, Debug, PartialEq, Eq)]
pub enum Field {
    /// What a line of the text says.
    Line(Name),
    SideA,
    SideB,
    Strake(usize),
    Depth(usize),
}

/// A field and what is wrong with it, with its limit and the likely mend.
pub struct Place {
    pub field: Field,
    pub slip: Slip,
}

impl Place {
    fn new(field: Field, limit: Limit) -> Place {
        Place { field, slip: Slip::new(limit) }
    }

    fn of_line(name: Name, limit: Limit) -> Place {
        Place::new(Field::Line(name), limit)
    }
}

/// Most places that are listed for one refusal.
const MOST: usize = 5;

/// The rules on a silo's numbers, in the order in which they are tried.
const RULES: [Refusal; 9] = [
    Refusal::SECTION,
    Refusal::UNEQUAL_SIDES,
    Refusal::PRODUCT,
    Refusal::ECCENTRICITY,
    Refusal::BOTTOM,
    Refusal::STRAKE,
    Refusal::DEPTH,
    Refusal::HEADROOM,
    Refusal::TOO_SLENDER,
];

/// Sizes that other numbers are measured by.
#[derive(Clone, Copy)]
struct Sizes {
    /// d_c, mm
    width: Option<u64>,
    /// V, mm
    wall: Option<u64>,
    /// g, mm
    headroom: Option<u64>,
    /// H, mm
    hopper: Option<u64>,
}

impl Sizes {
    fn of(silo: &Description) -> Sizes {
        Sizes {
            width: Some(silo.section.shorter_side().into()),
            wall: Some(silo.wall_height()),
            headroom: Some(silo.headroom.into()),
            hopper: Some(silo.hopper_height.into()),
        }
    }

    /// Those that are not at fault themselves.
    fn sound(silo: &Description) -> Sizes {
        let all = Sizes::of(silo);
        let width = all.width.filter(|_| sides(silo.section).is_empty());
        let counted = counts(silo).iter().all(|place| place.field != Field::Line(Name::Strakes));
        let wall = all.wall.filter(|_| counted && strakes(silo).is_empty());
        let sizes = Sizes { width, wall, ..all };
        Sizes {
            headroom: all.headroom.filter(|_| headroom(silo, &sizes).is_none()),
            hopper: all.hopper.filter(|_| bottom(silo, &sizes).is_empty()),
            ..sizes
        }
    }
}

/// The places that a refusal speaks of, as far as they can be found.
pub fn places(refusal: Refusal, silo: &Description) -> Vec<Place> {
    judged(refusal, silo, &Sizes::of(silo))
}

/// Limits that are broken beside the one that was refused first, each with its refusal. What is measured by a size that is itself at
/// fault is left for later.
pub fn others(first: Refusal, silo: &Description) -> Vec<(Refusal, Place)> {
    let sizes = Sizes::sound(silo);
    let rules = RULES.into_iter().filter(|rule| *rule != first);
    let found = rules.map(|rule| (rule, judged(rule, silo, &sizes)));
    found.flat_map(|(rule, places)| places.into_iter().map(move |place| (rule, place))).collect()
}

/// What is left for later, where a size that other numbers are measured by is at fault.
pub fn later(silo: &Description) -> Option<String> {
    let Sizes { width, wall, headroom, hopper } = Sizes::sound(silo);
    let sizes = [
        (width, Name::Diameter),
        (wall, Name::Strakes),
        (headroom, Name::Headroom),
        (hopper, Name::HopperHeight),
    ];
    let at_fault = sizes.iter().filter(|(size, _)| size.is_none()).map(|(_, name)| *name);
    let at_fault: Vec<Name> = at_fault.collect();
    (!at_fault.is_empty()).then(|| words::later(&at_fault))
}

fn judged(refusal: Refusal, silo: &Description, sizes: &Sizes) -> Vec<Place> {
    let mut found = match refusal {
        Refusal::SHEET_TOO_LONG | Refusal::WRONG_LENGTH => counts(silo),
        Refusal::SECTION => sides(silo.section),
        Refusal::UNEQUAL_SIDES => unequal(silo.section).into_iter().collect(),
        Refusal::PRODUCT => product(silo),
        Refusal::ECCENTRICITY => eccentricities(silo, sizes),
        Refusal::BOTTOM => bottom(silo, sizes),
        Refusal::STRAKE => strakes(silo),
        Refusal::DEPTH => depths(silo, sizes),
        Refusal::HEADROOM => headroom(silo, sizes).into_iter().collect(),
        Refusal::TOO_SLENDER => shape(sizes).into_iter().collect(),
        _ => Vec::new(),
    };
    let more = found.len().saturating_sub(MOST);
    found.truncate(MOST);
    if let Some(last) = found.last_mut() {
        last.slip.more = more;
    }
    found
}

const MOST_STRAKES: u64 = 24;
/// mm
const HIGHEST_STRAKE: u64 = STRAKE.limits.1;
const HIGHEST_WALL: u64 = MOST_STRAKES * HIGHEST_STRAKE;

fn counts(silo: &Description) -> Vec<Place> {
    let mut found = Vec::new();
    let (strakes, depths) = (silo.strakes.len(), silo.depths.len());
    if !(1..=MOST_STRAKES as usize).contains(&strakes) {
        let too_high = silo.wall_height() > HIGHEST_WALL;
        let limit = Limit::Strakes { count: strakes, too_high };
        found.push(Place::of_line(Name::Strakes, limit));
    }
    // steps and edges follow the strakes
    if found.is_empty() && !(1..=200).contains(&depths) {
        let step = Some(silo.wall_height().div_ceil(199)).filter(|step| *step > 1);
        found.push(Place::of_line(Name::Depths, Limit::Depths { count: depths, step }));
    }
    found
}

/// A number with its limits, and other readings of it that a person may have meant.
struct Number {
    field: Field,
    size: Size,
    number: u64,
    measure: &'static Measure,
    /// A factor by which a slip of unit makes a number too small or too large.
    slip: u64,
}

impl Number {
    fn place(&self) -> Option<Place> {
        let (number, show) = (self.number, self.measure.show);
        let (from, to) = self.measure.limits;
        if (from..=to).contains(&number) {
            return None;
        }
        let limits = (show(from), show(to));
        let limit = Limit::Outside { size: self.size, is_0: number == 0, limits, strakes: None };
        let slip = Slip::new(limit).with(self.meant());
        Some(Place { field: self.field, slip })
    }

    /// What the number is in another unit, where that is inside the limits, and the tangent of an angle.
    fn meant(&self) -> Vec<Mend> {
        let number = self.number;
        let whole = Some(number / self.slip).filter(|_| number.is_multiple_of(self.slip));
        let meant = [number.checked_mul(self.slip), whole].into_iter().flatten();
        let meant = self.measure.mends(meant).into_iter().take(1);
        let is_angle = self.size == Size::Friction && (500..=4500).contains(&number);
        if !is_angle {
            return meant.collect();
        }
        let tangents = self.measure.tangents(number as f64 / 100.0);
        meant.map(|mend| mend.read_as(Reading::Hundredths)).chain(tangents).collect()
    }
}

fn length(field: Field, size: Size, number: u64, measure: &'static Measure) -> Number {
    Number { field, size, number, measure, slip: 1000 }
}

/// A diameter or sides outside their limits.
pub fn sides(section: Section) -> Vec<Place> {
    let side = |field, size, number: u32| length(field, size, number.into(), &SIDE).place();
    let whole = |place: Place, before: String, after: String| {
        let slip = place.slip.between(&before, &after);
        Place { slip, ..place }
    };
    match section {
        Section::Circle(d) => {
            side(Field::Line(Name::Diameter), Size::Diameter, d).into_iter().collect()
        }
        Section::Rectangle(a, b) => {
            let first = side(Field::SideA, Size::SideA, a);
            let second = side(Field::SideB, Size::SideB, b);
            let first = first.map(|place| whole(place, String::new(), format!(" x {b} mm")));
            let second = second.map(|place| whole(place, format!("{a} mm x "), String::new()));
            let mut sides: Vec<Place> = first.into_iter().chain(second).collect();
            // 2 x 4000 mm may be two of these
            if a == 2 {
                sides.iter_mut().for_each(|place| place.slip.mends.clear());
            }
            sides
        }
    }
}

/// A rectangle with its longer side over three times the shorter. Sides outside their limits are left for later.
fn unequal(section: Section) -> Option<Place> {
    let Section::Rectangle(a, b) = section else { return None };
    let (longer, shorter) = (a.max(b), a.min(b));
    if !sides(section).is_empty() || longer <= 3 * shorter {
        return None;
    }
    Some(Place::of_line(Name::Sides, Limit::Unequal { longer, shorter }))
}

fn product(silo: &Description) -> Vec<Place> {
    let product = &silo.product;
    let ratio = |line, size, number: u16, measure| Number {
        field: Field::Line(line),
        size,
        number: number.into(),
        measure,
        slip: 100,
    };
    let weight = Number {
        field: Field::Line(Name::Weight),
        size: Size::Weight,
        number: product.weight.into(),
        measure: &WEIGHT,
        slip: 1000,
    };
    let factor = ratio(Name::Factor, Size::Factor, product.factor, &FACTOR);
    let limits = [
        Some(weight),
        Some(ratio(Name::Ratio, Size::Ratio, product.ratio, &RATIO)),
        Some(ratio(Name::Friction, Size::Friction, product.friction, &FRICTION)),
        (product.factor > 0).then_some(factor),
    ];
    limits.into_iter().flatten().filter_map(|limit| limit.place()).collect()
}

fn eccentricities(silo: &Description, sizes: &Sizes) -> Vec<Place> {
    let Some(most) = sizes.width.map(|width| width / 4) else { return Vec::new() };
    let of = [
        (Name::FillingEccentricity, silo.filling_eccentricity),
        (Name::OutletEccentricity, silo.outlet_eccentricity),
    ];
    let over = of.into_iter().filter(|(_, e)| u64::from(*e) > most);
    over.map(|(name, _)| Place::of_line(name, Limit::Eccentricity(most))).collect()
}

fn bottom(silo: &Description, sizes: &Sizes) -> Vec<Place> {
    let [height, run] = [silo.hopper_height, silo.hopper_run].map(u64::from);
    let least = (363_971 * run).div_ceil(1_000_000);
    let too_wide = sizes.width.filter(|width| run > 0 && 2 * run >= *width);
    let mut found = Vec::new();
    let mut add = |name, limit| found.push(Place::of_line(name, limit));
    if run == 0 && height > 0 {
        add(Name::HopperRun, Limit::NoRun);
    }
    if let Some(width) = too_wide {
        add(Name::HopperRun, Limit::RunTooWide(width));
    }
    if height > 25_000 {
        add(Name::HopperHeight, Limit::HopperTooHigh);
    }
    // a slope is measured by a run that can stay
    if height < least && too_wide.is_none() {
        add(Name::HopperHeight, Limit::TooFlat { run, least });
    }
    found
}

/// The first of each run of equal strakes.
fn strakes(silo: &Description) -> Vec<Place> {
    let mut found = Vec::new();
    let mut first = 0;
    for run in silo.strakes.chunk_by(|a, b| a == b) {
        let number = length(Field::Strake(first), Size::Height, run[0].into(), &STRAKE);
        let last = first + run.len();
        found.extend(number.place().map(|place| of_run(place, silo, first..last)));
        first = last;
    }
    found
}

/// A place of some strakes, with mends of the whole list.
fn of_run(mut place: Place, silo: &Description, run: Range<usize>) -> Place {
    let numbers = Some((run.start + 1, run.end)).filter(|_| run.len() > 1);
    if let What::Limit(Limit::Outside { strakes, .. }) = &mut *place.slip.what {
        *strakes = numbers;
    }
    for mend in &mut place.slip.mends {
        let height = mend.value.trim_end_matches(" mm").parse().unwrap_or(silo.strakes[run.start]);
        let mut heights = silo.strakes.clone();
        heights[run.clone()].fill(height);
        *mend = mend.clone().in_whole(runs(&heights) + " mm");
    }
    if let [height] = silo.strakes[..] {
        place.slip.mends.extend(in_strakes(height.into()));
    }
    place
}

/// A wall in one piece as equal strakes, the fewest that come out even.
fn in_strakes(wall: u64) -> Option<Mend> {
    let fewest = wall.div_ceil(HIGHEST_STRAKE).max(2);
    let count = (fewest..=MOST_STRAKES).find(|count| wall.is_multiple_of(*count))?;
    let each = wall / count;
    let is_strake = (STRAKE.limits.0..=HIGHEST_STRAKE).contains(&each);
    is_strake.then(|| Mend::new(format!("{count} x {each} mm"), Reading::OnePiece))
}

fn depths(silo: &Description, sizes: &Sizes) -> Vec<Place> {
    let mut found = Vec::new();
    for (i, depth) in silo.depths.iter().enumerate() {
        let before = i.checked_sub(1).map(|i| silo.depths[i]).filter(|before| depth <= before);
        let limit = below_foot(*depth, sizes).or(before.map(Limit::NotRising));
        found.extend(limit.map(|limit| Place::new(Field::Depth(i), limit)));
    }
    found
}

fn below_foot(depth: u32, sizes: &Sizes) -> Option<Limit> {
    sizes.wall.filter(|foot| u64::from(depth) > *foot).map(Limit::BelowFoot)
}

/// What is wrong with a depth that is given beside the sheet.
pub fn given_depth(depth: u32, silo: &Description) -> Option<Limit> {
    below_foot(depth, &Sizes::sound(silo))
}

/// A rectangle, where a circle is due; its loads are named where it has any, which one that is too long has not.
pub fn rectangle(silo: &Description) -> Option<Place> {
    let Section::Rectangle(..) = silo.section else { return None };
    let has_loads = unequal(silo.section).is_none();
    let side = has_loads.then(|| tenths(silo.section.patch_side()));
    Some(Place::of_line(Name::Sides, Limit::Rectangle(side)))
}

/// A headroom that leaves no grain at the wall: g >= V.
fn headroom(silo: &Description, sizes: &Sizes) -> Option<Place> {
    let (headroom, wall) = (u64::from(silo.headroom), sizes.wall?);
    if headroom < wall {
        return None;
    }
    let good = headrooms(sizes);
    let higher = Some(headroom).filter(|headroom| *headroom < HIGHEST_WALL);
    // metres taken for millimetres
    let meant = Some(headroom / 1000).filter(|_| higher.is_none() && headroom.is_multiple_of(1000));
    let meant = meant.filter(|meant| good.as_ref().is_some_and(|good| good.contains(meant)));
    let good = good.map(|good| (*good.start(), *good.end()));
    let slip = Slip::new(Limit::Headroom { wall, good, higher });
    let slip = slip.with(meant.map(|meant| Mend::plain(millimetres(meant))));
    Some(Place { field: Field::Line(Name::Headroom), slip })
}

/// The headrooms that break neither 17 nor 12, as far as the sizes are known; mm.
fn headrooms(sizes: &Sizes) -> Option<RangeInclusive<u64>> {
    let wall = sizes.wall?;
    let least = match (sizes.hopper, sizes.width) {
        (Some(hopper), Some(width)) => (wall + hopper + 1).saturating_sub(10 * width),
        _ => 0,
    };
    (least < wall).then(|| least..=wall - 1)
}

/// A silo with h >= 10 d_c.
fn shape(sizes: &Sizes) -> Option<Place> {
    let (width, wall, headroom, hopper) =
        (sizes.width?, sizes.wall?, sizes.headroom?, sizes.hopper?);
    if wall.saturating_sub(headroom) + hopper < 10 * width {
        return None;
    }
    let least = headrooms(sizes).filter(|_| headroom > 0).map(|good| *good.start());
    let limit = Limit::TooSlender { width, wall, headroom, hopper, least };
    Some(Place::of_line(Name::Strakes, limit))
}

impl Field {
    /// The name of the text line that says this number.
    pub fn name(self) -> Name {
        match self {
            Field::Line(name) => name,
            Field::SideA | Field::SideB => Name::Sides,
            Field::Strake(_) => Name::Strakes,
            Field::Depth(_) => Name::Depths,
        }
    }

    /// What a person calls it, counting from 1, and its value where it is one number.
    pub fn shown(self, silo: &Description) -> String {
        match (self, silo.section) {
            (Field::Line(name), _) => shown_line(name, silo),
            (Field::SideA, Section::Rectangle(a, _)) => format!("side a = {a} mm"),
            (Field::SideB, Section::Rectangle(_, b)) => format!("side b = {b} mm"),
            (Field::SideA | Field::SideB, Section::Circle(d)) => format!("diameter = {d} mm"),
            (Field::Strake(i), _) => format!("strake {} = {} mm", i + 1, silo.strakes[i]),
            (Field::Depth(i), _) => format!("depth {} = {} mm", i + 1, silo.depths[i]),
        }
    }
}

fn shown_line(name: Name, silo: &Description) -> String {
    let product = &silo.product;
    let ratio = |number: u16| hundredths(number.into());
    let length = |number: u32| millimetres(number.into());
    let value = match name {
        Name::Diameter => length(silo.section.shorter_side()),
        Name::Weight => newtons(product.weight.into()),
        Name::Ratio => ratio(product.ratio),
        Name::Friction => ratio(product.friction),
        Name::Factor => ratio(product.factor),
        Name::FillingEccentricity => length(silo.filling_eccentricity),
        Name::OutletEccentricity => length(silo.outlet_eccentricity),
        Name::HopperHeight => length(silo.hopper_height),
        Name::HopperRun => length(silo.hopper_run),
        Name::Headroom => length(silo.headroom),
        _ => return name.word().to_string(),
    };
    format!("{} = {value}", name.word())
}
