//! Lines that say again, or otherwise, what other lines of a silo's text say: which of them can be left out.

use super::read::{mended, Reader};
use crate::catalogue::{self, Origin};
use crate::description::{Product, BLANK_FACTOR, MOST_STRAKES};
use crate::message::{self, Elsewhere, Mend, Slip};
use crate::name::Name;
use crate::number::{hundredths, ANGLE, FACTOR, HEADROOM, LENGTH, STRAKE, WEIGHT};
use crate::value;

impl Reader {
    /// Table 7.1's numbers of the text's product.
    fn table(&self) -> Option<Product> {
        let row = catalogue::row(&self.entry(Name::Product)?.value).ok()?;
        Origin::numbers(row, None).ok()
    }

    /// The weight of the text's product in table 7.1 is at least this one.
    pub(super) fn is_lighter_than_table(&self, mends: &[Mend]) -> bool {
        let weight = |mend: &Mend| value::quantity(mend.whole(), &WEIGHT).ok();
        self.table().is_some_and(|table| {
            mends.iter().filter_map(weight).all(|weight| weight <= table.weight.into())
        })
    }

    /// The wall's height, the grain's, or an angle of internal friction: what the lines of the silo make of it. A line that says more
    /// than they do is not to be left out.
    pub(super) fn judge_elsewhere(&mut self) {
        let lines = std::mem::take(&mut self.elsewhere);
        if lines.is_empty() {
            return;
        }
        let known = self.known();
        for (elsewhere, word, line) in lines {
            let (elsewhere, mend) = known.judged(elsewhere, &line.value);
            self.meant.extend(elsewhere.name());
            let mut fixes = mended(&line, mend.as_slice());
            fixes.extend(elsewhere.is_too_much().then(|| line.left_out()));
            let slip = Slip::new(message::Line::UnknownName { elsewhere: Some(elsewhere) });
            self.fail_with(Some(line.number), slip.at(word).with(mend), fixes);
        }
    }

    fn known(&self) -> Known {
        let value = |name| self.entry(name).map(|line| line.value.as_str());
        let strakes = value(Name::Strakes).map(|list| value::list(list, &STRAKE, MOST_STRAKES));
        Known {
            wall: strakes.and_then(|heights| Some(heights.ok()?.iter().sum())),
            headroom: match value(Name::Headroom) {
                None | Some("") => Some(0),
                Some(value) => value::quantity(value, &HEADROOM).ok(),
            },
            factor: match value(Name::Factor) {
                None => Some(self.table().map_or(0, |table| table.factor.into())),
                Some("") => Some(BLANK_FACTOR.into()),
                Some(value) => value::quantity(value, &FACTOR).ok(),
            },
            has_factor: self.has(Name::Factor),
        }
    }
}

/// What the lines of a silo say, as far as they can be read.
struct Known {
    /// The sum of the strakes, mm
    wall: Option<u64>,
    /// mm; 0 without a line or left blank
    headroom: Option<u64>,
    /// That of its line or of table 7.1, hundredths; 0 where there is none.
    factor: Option<u64>,
    has_factor: bool,
}

impl Known {
    fn judged(&self, elsewhere: Elsewhere, value: &str) -> (Elsewhere, Option<Mend>) {
        let length = || value::quantity(value, &LENGTH).ok();
        match elsewhere {
            Elsewhere::Height => match (length(), self.wall) {
                (Some(said), Some(wall)) if said != wall => (Elsewhere::OtherHeight(wall), None),
                (Some(_), Some(_)) => (elsewhere, None),
                _ => (Elsewhere::UnknownHeight, None),
            },
            Elsewhere::Level => match (length(), self.wall, self.headroom) {
                (Some(said), Some(wall), _) if said > wall => (Elsewhere::Heap, None),
                (Some(said), Some(wall), Some(headroom)) if said + headroom > wall => {
                    (Elsewhere::OtherLevel(wall.saturating_sub(headroom)), None)
                }
                (Some(_), Some(_), Some(_)) => (elsewhere, None),
                _ => (Elsewhere::UnknownLevel, None),
            },
            _ => self.judged_angle(value),
        }
    }

    /// By 7.4 an angle of internal friction gives the factor.
    fn judged_angle(&self, value: &str) -> (Elsewhere, Option<Mend>) {
        let angle = value::quantity(value, &ANGLE).ok();
        // 1.35 + 0.02 (phi - 30), at least 1.35
        let due = angle.map(|thousandths| (75 + thousandths.div_ceil(500)).max(135));
        match (due, self.factor) {
            (Some(due), Some(factor)) if due <= factor => (Elsewhere::InternalFriction, None),
            (Some(due), _) if FACTOR.is_inside(due) => {
                let mend = Mend::plain(hundredths(due)).of_line(Name::Factor);
                (Elsewhere::GreaterFactor(due), Some(mend).filter(|_| !self.has_factor))
            }
            _ => (Elsewhere::UnknownAngle, None),
        }
    }
}
