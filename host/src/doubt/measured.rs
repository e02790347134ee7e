//! What doubts are measured by: ratios and numbers of a silo, exact, and what of it is said.

use super::Ratio;
use crate::catalogue::{self, Origin, Wall};
use crate::description::{Description, Product, Section};
use crate::name::Name;
use crate::number::{hundredths, newtons};
use crate::place::Field;

/// A silo, and where its product's numbers come from.
pub struct Case<'a> {
    pub silo: &'a Description,
    pub origin: &'a Origin,
}

/// A number of a product, N/m³ or hundredths, over what it counts by.
fn ratio(product: &Product, name: Name) -> Ratio {
    (number(product, name), if name == Name::Weight { 1 } else { 100 })
}

/// The number of a product, N/m³ or hundredths.
fn number(product: &Product, name: Name) -> u64 {
    match name {
        Name::Weight => product.weight.into(),
        Name::Ratio => product.ratio.into(),
        Name::Friction => product.friction.into(),
        _ => product.factor.into(),
    }
}

impl Case<'_> {
    /// What the text's line says, as refusals show it.
    pub fn line(&self, name: Name) -> String {
        Field::Line(name).shown(self.silo)
    }

    /// d_c, mm
    pub fn width(&self) -> u64 {
        self.silo.section.shorter_side().into()
    }

    /// The lowest and the highest, mm
    pub fn strakes(&self) -> (u64, u64) {
        let heights = || self.silo.strakes.iter().map(|height| u64::from(*height));
        (heights().min().unwrap_or(0), heights().max().unwrap_or(0))
    }

    /// Nothing of a flat floor.
    pub fn hopper(&self, ratio: Ratio) -> Option<Ratio> {
        Some(ratio).filter(|_| !self.silo.is_flat())
    }

    /// Table 7.1's numbers for the product that the text names.
    fn table(&self) -> Option<Product> {
        let row = self.origin.row?;
        Origin::numbers(row, self.origin.wall.as_ref()).ok()
    }

    /// A number over the one that table 7.1 has for the product that the text names.
    pub fn by_table(&self, name: Name) -> Option<Ratio> {
        Some((number(&self.silo.product, name), number(&self.table()?, name)))
    }

    /// A number of a product that has no name.
    pub fn without_product(&self, name: Name) -> Option<Ratio> {
        Some(ratio(&self.silo.product, name)).filter(|_| self.origin.row.is_none())
    }

    /// The text's number beside table 7.1's.
    pub fn own(&self, name: Name) -> String {
        let Some((row, table)) = self.origin.row.zip(self.table()) else { return self.line(name) };
        let due = number(&table, name);
        let due = if name == Name::Weight { newtons(due) } else { hundredths(due) };
        let wall = match (name, &self.origin.wall) {
            (Name::Friction, Some(Wall::Concrete)) => " on concrete",
            (Name::Friction, Some(Wall::Steel)) => " on steel",
            (Name::Friction, _) => " on smooth steel",
            _ => "",
        };
        let product = catalogue::product(row);
        format!("{}, where table 7.1 has {due} for {product}{wall}", self.line(name))
    }
}

/// The wall is one of table 7.1's.
fn is_of_table(case: &Case) -> bool {
    matches!(case.origin.wall, Some(Wall::Steel | Wall::Concrete))
}

pub fn friction_on_smooth_wall(case: &Case) -> Option<Ratio> {
    case.by_table(Name::Friction).filter(|_| is_of_table(case))
}

/// Where no wall is named, by table 7.1's on this wall: it has the lower on steel and the greater on concrete.
pub fn friction_by(case: &Case, wall: Wall) -> Option<Ratio> {
    let row = case.origin.row.filter(|_| case.origin.wall.is_none())?;
    let table = Origin::numbers(row, Some(&wall)).ok()?;
    Some((case.silo.product.friction.into(), table.friction.into()))
}

pub fn friction_by_seen(case: &Case, wall: Wall, bound: &str) -> String {
    let limit = friction_by(case, wall).map_or(0, |(_, limit)| limit);
    let product = case.origin.row.map_or("", catalogue::product);
    let line = case.line(Name::Friction);
    format!("{line}, where table 7.1 has {bound} {} for {product}", hundredths(limit))
}

fn is_corrugated(case: &Case) -> bool {
    matches!(case.origin.wall, Some(Wall::Corrugated(_)))
}

/// By that on smooth steel.
pub fn friction_on_corrugated_wall(case: &Case) -> Option<Ratio> {
    case.by_table(Name::Friction).filter(|_| is_corrugated(case))
}

pub fn friction_on_corrugated_wall_by_itself(case: &Case) -> Option<Ratio> {
    case.without_product(Name::Friction).filter(|_| is_corrugated(case))
}

/// On a wall that may be smooth.
pub fn friction_without_product(case: &Case) -> Option<Ratio> {
    case.without_product(Name::Friction).filter(|_| !is_corrugated(case))
}

/// Where table 7.1 has none to measure it by.
pub fn friction_by_itself(case: &Case) -> Option<Ratio> {
    let known = case.origin.row.is_some() && is_of_table(case);
    Some(ratio(&case.silo.product, Name::Friction)).filter(|_| !known)
}

/// Of a product that has no name, unless it is blank, or weight, ratio and factor are those of a row.
pub fn factor_by_itself(case: &Case) -> Option<Ratio> {
    let product = &case.silo.product;
    let rows = (0..).map_while(|row| Origin::numbers(row, None).ok());
    let is_row = |row: Product| Product { friction: product.friction, ..row } == *product;
    let known = product.factor == 0 || rows.into_iter().any(is_row);
    case.without_product(Name::Factor).filter(|_| !known)
}

pub fn headroom(case: &Case) -> Option<Ratio> {
    Some((case.silo.headroom.into(), case.silo.wall_height()))
}

pub fn headroom_seen(case: &Case) -> String {
    let (grain, wall) = (case.silo.grain_height(), case.silo.wall_height());
    format!("{} leaves {grain} mm of grain at a wall of {wall} mm", case.line(Name::Headroom))
}

/// How many strakes have 0 Pa: loads begin at the grain's surface.
pub fn strakes_above_grain(case: &Case) -> Option<Ratio> {
    let surface = u64::from(case.silo.headroom);
    Some((case.silo.edges().filter(|(_, edge)| *edge <= surface).count() as u64, 1))
}

pub fn strakes_above_grain_seen(case: &Case) -> String {
    match strakes_above_grain(case) {
        Some((count, _)) if count > 1 => format!("each of strakes 1 to {count} has 0 Pa"),
        _ => "strake 1 has 0 Pa".to_string(),
    }
}

pub fn width_seen(case: &Case) -> String {
    match case.silo.section {
        Section::Circle(_) => case.line(Name::Diameter),
        Section::Rectangle(a, b) => format!("sides = {a} x {b} mm"),
    }
}

/// h and d_c
pub fn shape_seen(case: &Case) -> String {
    format!("height h {} mm on a width of {} mm", case.silo.height(), case.width())
}

/// The first strake over the lowest below it.
pub fn first_strake(case: &Case) -> Option<Ratio> {
    let (first, others) = case.silo.strakes.split_first()?;
    others.iter().min().map(|lowest| ((*first).into(), (*lowest).into()))
}

pub fn first_strake_seen(case: &Case) -> String {
    let (first, lowest) = first_strake(case).unwrap_or_default();
    format!("the first strake is {first} mm and one below it {lowest} mm")
}

pub fn hopper_seen(case: &Case) -> String {
    format!("hopper of {} mm with a run of {} mm", case.silo.hopper_height, case.silo.hopper_run)
}

/// One of 0 is at the axis.
pub fn eccentricity(eccentricity: u32) -> Option<Ratio> {
    Some((eccentricity.into(), 1)).filter(|_| eccentricity > 0)
}

/// Over the wall's height.
pub fn last_depth(case: &Case) -> Option<Ratio> {
    case.silo.depths.last().map(|depth| ((*depth).into(), case.silo.wall_height()))
}

pub fn last_depth_seen(case: &Case) -> String {
    let last = case.silo.depths.last().copied().unwrap_or(0);
    format!("depths go down to {last} mm on a wall of {} mm", case.silo.wall_height())
}
