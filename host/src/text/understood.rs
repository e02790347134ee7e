//! The lines of a silo's text as they were understood, each by itself.

use super::depths::Depths;
use super::line::Line;
use super::read::Reader;
use super::write::runs;
use crate::catalogue::{self, Wall};
use crate::description::MOST_STRAKES;
use crate::message::Mend;
use crate::name::Name;
use crate::number::{
    Measure, ANGLE, ECCENTRICITY, FACTOR, FRICTION, HEADROOM, HOPPER_HEIGHT, HOPPER_RUN, LENGTH,
    OUTLET, RATIO, SIDE, STRAKE, WEIGHT,
};
use crate::value;

/// A line with its value in the sheet's unit.
pub struct Understood {
    /// Counted from 1; none where the silo is a sheet.
    pub line: Option<usize>,
    pub name: Name,
    /// None where it cannot be read.
    pub value: Option<String>,
    pub unit: &'static str,
    /// As it stands in the text.
    pub written: String,
    pub comment: String,
}

/// The lines with known names, in the text's order.
pub fn understood(text: &str) -> Vec<Understood> {
    let lines = Reader::of(text).lines.into_iter();
    lines.map(|line| of(&line)).collect()
}

fn of(line: &Line) -> Understood {
    let read = match line.value.is_empty() {
        true => Some((String::new(), "")),
        false => read(line.name, &line.value),
    };
    let (value, unit) = read.unzip();
    Understood {
        line: Some(line.number),
        name: line.name,
        value,
        unit: unit.unwrap_or(""),
        written: line.value.clone(),
        comment: line.comment().to_string(),
    }
}

/// The mend's value can be read as a line of that name.
pub(super) fn is_read(name: Name, mend: &Mend) -> bool {
    let value = match name.is_label() {
        true => mend.whole(),
        false => mend.whole().split('#').next().unwrap_or_default(),
    };
    value.trim().is_empty() || read(name, value.trim()).is_some()
}

/// How the quantity of a name is written.
fn measure(name: Name) -> Option<&'static Measure> {
    Some(match name {
        Name::Diameter => &SIDE,
        Name::Weight => &WEIGHT,
        Name::Ratio => &RATIO,
        Name::Friction => &FRICTION,
        Name::Factor => &FACTOR,
        Name::FillingEccentricity | Name::OutletEccentricity => &ECCENTRICITY,
        Name::HopperHeight => &HOPPER_HEIGHT,
        Name::HopperRun => &HOPPER_RUN,
        Name::HopperAngle => &ANGLE,
        Name::OutletWidth => &OUTLET,
        Name::Headroom => &HEADROOM,
        _ => return None,
    })
}

/// A value and its unit.
fn read(name: Name, value: &str) -> Option<(String, &'static str)> {
    if let Some(measure) = measure(name) {
        let shown = (measure.show)(value::quantity(value, measure).ok()?);
        let number = shown.split(' ').next()?;
        return Some((number.to_string(), measure.unit()));
    }
    let word = |word: String| Some((word, ""));
    match name {
        Name::Sides => {
            let (a, b) = value::pair(value, &SIDE).ok()?;
            Some((format!("{a} x {b}"), SIDE.unit()))
        }
        Name::Strakes => {
            let heights = value::list(value, &STRAKE, MOST_STRAKES).ok()?;
            let heights: Vec<u16> = heights.into_iter().map(|height| height as u16).collect();
            Some((runs(&heights), STRAKE.unit()))
        }
        Name::Depths => match Depths::read(value).ok()? {
            Depths::StrakeEdges => word("strake edges".to_string()),
            Depths::Every(step) => Some((format!("every {step}"), LENGTH.unit())),
            Depths::List(list) => {
                let list: Vec<String> = list.iter().map(u32::to_string).collect();
                Some((list.join(", "), LENGTH.unit()))
            }
        },
        Name::Product => word(catalogue::product(catalogue::row(value).ok()?).to_string()),
        Name::Wall => word(Wall::read(value).ok()?.word().to_string()),
        Name::Floor => word(super::read::flat(value).ok().map(|_| "flat".to_string())?),
        Name::Stiffeners => {
            let stiffened = super::read::stiffened(value).ok()?;
            word(if stiffened { "yes" } else { "no" }.to_string())
        }
        _ => word(value.split_whitespace().collect::<Vec<&str>>().join(" ")),
    }
}
