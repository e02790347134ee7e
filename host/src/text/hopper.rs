//! A hopper by two of height, run and angle; the run may be said by the outlet's width.
//!
//! A sheet holds height and run in whole mm. What does not come out exactly is turned away with the nearest two.

use super::read::Reader;
use crate::description::Section;
use crate::message::{self, Limit, Mend, Number, Reading, Slip};
use crate::name::Name;
use crate::number::{degrees, millimetres, ANGLE, HOPPER_HEIGHT, HOPPER_RUN, OUTLET};
use crate::place;
use crate::value;

impl Reader {
    /// Two of height, run and angle; the run may be said by the outlet's width.
    pub(super) fn hopper(&mut self, section: Option<Section>) -> Option<(u32, u32)> {
        let width = section.filter(|section| place::sides(*section).is_empty());
        let width = width.map(Section::shorter_side);
        let [height, run, angle, outlet] =
            [Name::HopperHeight, Name::HopperRun, Name::HopperAngle, Name::OutletWidth]
                .map(|name| self.has(name));
        if run && outlet {
            return self.too_much(&[Name::HopperRun, Name::OutletWidth]);
        }
        let across = if outlet { Name::OutletWidth } else { Name::HopperRun };
        if height && angle && (run || outlet) {
            return self.too_much(&[Name::HopperHeight, across, Name::HopperAngle]);
        }
        let height = height.then(|| self.number::<u32>(Name::HopperHeight, &HOPPER_HEIGHT));
        let run = (run || outlet).then(|| self.run(section, width));
        let angle = angle.then(|| self.take(Name::HopperAngle, read_angle));
        match (height, run, angle) {
            (Some(height), Some(run), _) => Some((height?, run?)),
            (None, Some(run), Some(angle)) => {
                let (run, angle) = (run?, angle?);
                let height = height_over(run, angle, width);
                Some((self.converted(Name::HopperAngle, height)?, run))
            }
            (Some(height), None, Some(angle)) => {
                let (height, angle) = (height?, angle?);
                let run = run_under(height, angle, width);
                Some((height, self.converted(Name::HopperAngle, run)?))
            }
            (None, Some(_), None) => self.missing(&[Name::HopperHeight, Name::HopperAngle]),
            (Some(_), None, None) => {
                self.missing(&[Name::HopperRun, Name::OutletWidth, Name::HopperAngle])
            }
            (None, None, _) => {
                self.missing(&[Name::HopperHeight, Name::HopperRun, Name::OutletWidth])
            }
        }
    }

    /// The hopper's run, from its own line or from the outlet's width. A width that is at fault is told first.
    fn run(&mut self, section: Option<Section>, width: Option<u32>) -> Option<u32> {
        if self.has(Name::HopperRun) {
            return self.number(Name::HopperRun, &HOPPER_RUN);
        }
        let outlet: u32 = self.number(Name::OutletWidth, &OUTLET)?;
        for fault in place::sides(section?) {
            self.fail_value(fault.field.name(), fault.slip);
        }
        self.converted(Name::OutletWidth, run_beside(width?, outlet))
    }

    /// A size that another line says, or why it cannot.
    fn converted(&mut self, name: Name, size: Result<u32, Slip>) -> Option<u32> {
        size.map_err(|slip| self.fail_value(name, slip)).ok()
    }

    /// More lines than say one hopper; the last is at fault.
    fn too_much<T>(&mut self, names: &[Name]) -> Option<T> {
        let line = names.iter().filter_map(|name| self.line(*name)).max();
        self.fail(line, Slip::new(message::Hopper::TooMuch(names.to_vec())));
        None
    }
}

/// Thousandths of a degree from the horizontal, over 0 and under 90 degrees.
fn read_angle(value: &str) -> Result<u64, Slip> {
    match value::quantity(value, &ANGLE)? {
        0 | RIGHT_ANGLE.. => Err(Slip::new(Number::NoSlope)),
        angle => Ok(angle),
    }
}

const RIGHT_ANGLE: u64 = 90_000;

/// The run that leaves an outlet of that width, across the diameter or shorter side; mm.
fn run_beside(width: u32, outlet: u32) -> Result<u32, Slip> {
    let twice = match width.checked_sub(outlet) {
        None | Some(0) => return Err(Slip::new(message::Hopper::OutletTooWide(width))),
        Some(_) if outlet == 0 => return Err(Slip::new(message::Hopper::NoOutlet)),
        Some(twice) => twice,
    };
    if twice % 2 == 0 {
        return Ok(twice / 2);
    }
    let beside = [outlet - 1, outlet + 1].into_iter().filter(|outlet| (1..width).contains(outlet));
    let mends = beside.map(|outlet| Mend::plain(millimetres(outlet.into())));
    Err(Slip::new(message::Hopper::HalfMillimetre { width, twice }).with(mends))
}

/// The height over a run, for an angle; mm.
fn height_over(run: u32, angle: u64, width: Option<u32>) -> Result<u32, Slip> {
    let near = f64::from(run) * radians(angle).tan();
    let names = [Name::HopperRun, Name::HopperHeight];
    exactly(angle, run, near, width, |height| (height, run), names)
}

/// The run under a height, for an angle; mm.
fn run_under(height: u32, angle: u64, width: Option<u32>) -> Result<u32, Slip> {
    let near = f64::from(height) / radians(angle).tan();
    let names = [Name::HopperHeight, Name::HopperRun];
    exactly(angle, height, near, width, |run| (height, run), names)
}

fn radians(angle: u64) -> f64 {
    (angle as f64 / 1000.0).to_radians()
}

/// Only at 45 degrees is the tangent of such an angle a fraction; elsewhere no whole mm gives it, and those beside it that the
/// library takes are named.
fn exactly(
    angle: u64,
    known: u32,
    near: f64,
    width: Option<u32>,
    sizes: impl Fn(u32) -> (u32, u32),
    [name, unknown]: [Name; 2],
) -> Result<u32, Slip> {
    if angle == RIGHT_ANGLE / 2 {
        return Ok(known);
    }
    let taken = |near: f64| {
        let below = whole(near);
        [below, below + 1].into_iter().filter(|size| fault(sizes(*size), width).is_none())
    };
    let mends = taken(near).map(|size| {
        let (height, run) = sizes(size);
        let slope = f64::from(height).atan2(f64::from(run)).to_degrees();
        let slope = Reading::Slope((10_000.0 * slope).round() as u64);
        Mend::new(millimetres(size.into()), slope).of_line(unknown)
    });
    let mends: Vec<Mend> = mends.collect();
    // the tangent from the vertical is one over that from the horizontal
    let is_taken = taken(f64::from(known).powi(2) / near).next().is_some();
    let vertical = from_vertical(angle).filter(|_| is_taken);
    let known = (name, known);
    let below = whole(near);
    Err(match fault(sizes(below + 1), width) {
        Some(limit) if mends.is_empty() => {
            let (unknown, limit) = ((unknown, below), Box::new(limit));
            Slip::new(message::Hopper::Outside { known, unknown, limit }).with(vertical)
        }
        _ => {
            let slip = Slip::new(message::Hopper::NotExact { known, unknown, angle });
            slip.with(mends.into_iter().chain(vertical))
        }
    })
}

/// The whole mm below.
fn whole(near: f64) -> u32 {
    near.floor().min(f64::from(u32::MAX - 1)) as u32
}

/// An angle that was measured from the vertical, where it is a hopper's from the horizontal.
fn from_vertical(angle: u64) -> Option<Mend> {
    let other = RIGHT_ANGLE - angle;
    let is_slope = other > ANGLE.limits.0 && other < ANGLE.limits.1;
    is_slope.then(|| Mend::new(degrees(other), Reading::Vertical))
}

/// Why the library would not take a hopper, as far as the width is known.
fn fault((height, run): (u32, u32), width: Option<u32>) -> Option<Limit> {
    let [height, run] = [height, run].map(u64::from);
    match width.map(u64::from).filter(|width| 2 * run >= *width) {
        Some(width) => Some(Limit::RunTooWide(width)),
        None if run == 0 => Some(Limit::NoRun),
        None if height > 25_000 => Some(Limit::HopperTooHigh),
        None if 1_000_000 * height < 363_971 * run => Some(Limit::Flat),
        None => None,
    }
}
