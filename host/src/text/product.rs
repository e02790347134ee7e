//! The product of a silo's text: a row of table 7.1, a row with numbers of the text's own, or four numbers.

use super::read::Reader;
use crate::catalogue::{self, Origin, Wall};
use crate::description::Product;
use crate::message::{self, Slip};
use crate::name::Name;
use crate::number::{Measure, FACTOR, FRICTION, RATIO, WEIGHT};
use crate::value;

/// The product's own numbers.
const PROPERTIES: [Name; 4] = [Name::Weight, Name::Ratio, Name::Friction, Name::Factor];

/// A line is there and could not be read; its error is told.
struct Unread;

impl Reader {
    /// A row of table 7.1, some of its numbers replaced by the text's own, or four numbers.
    pub(super) fn product(&mut self) -> Option<(Product, Origin)> {
        let wall = self.wall();
        if self.has(Name::Product) {
            return self.row(wall);
        }
        if self.first(&PROPERTIES).is_none() {
            if self.is_meant(&PROPERTIES) {
                return None;
            }
            let other = if self.has(Name::Wall) { &[][..] } else { &[Name::Weight] };
            return self.missing(&[&[Name::Product], other].concat());
        }
        let weight = self.property(Name::Weight, &WEIGHT);
        let ratio = self.property(Name::Ratio, &RATIO);
        let friction = self.property(Name::Friction, &FRICTION);
        let factor = self.property(Name::Factor, &FACTOR);
        let product =
            Product { weight: weight?, ratio: ratio?, friction: friction?, factor: factor? };
        Some((product, Origin { wall: wall.ok()?, ..Origin::default() }))
    }

    /// The wall, where it has a line.
    fn wall(&mut self) -> Result<Option<Wall>, Unread> {
        match self.has(Name::Wall) {
            true => self.take(Name::Wall, Wall::read).map(Some).ok_or(Unread),
            false => Ok(None),
        }
    }

    /// The row of the text's product.
    fn row(&mut self, wall: Result<Option<Wall>, Unread>) -> Option<(Product, Origin)> {
        let row = self.take(Name::Product, catalogue::row);
        if !self.has(Name::Friction) {
            self.friction_due(&wall);
        }
        let replaced: Vec<Name> = PROPERTIES.into_iter().filter(|name| self.has(*name)).collect();
        if replaced.len() == PROPERTIES.len() {
            let slip = Slip::new(message::Product::BesideItsNumbers);
            self.fail(self.line(Name::Product), slip);
        }
        let weight = self.replacement(Name::Weight, &WEIGHT);
        let ratio = self.replacement(Name::Ratio, &RATIO);
        let friction = self.replacement(Name::Friction, &FRICTION);
        let factor = self.replacement(Name::Factor, &FACTOR);
        let (row, wall) = (row?, wall.ok()?);
        let table = self.take(Name::Product, |_| {
            let numbers = Origin::numbers(row, wall.as_ref());
            numbers.map_err(|refusal| Slip::new(message::Product::Refused(refusal.meaning())))
        })?;
        let product = Product {
            weight: weight?.unwrap_or(table.weight),
            ratio: ratio?.unwrap_or(table.ratio),
            friction: friction?.unwrap_or(table.friction),
            factor: factor?.unwrap_or(table.factor),
        };
        Some((product, Origin { row: Some(row), wall, replaced }))
    }

    /// Table 7.1 has a friction for smooth steel and for concrete alone.
    fn friction_due(&mut self, wall: &Result<Option<Wall>, Unread>) {
        match wall {
            Ok(None) if self.is_meant(&[Name::Wall, Name::Friction]) => (),
            Ok(None) => {
                let fixes = Name::Wall.choices().iter().map(|line| line.to_string()).collect();
                self.fail_with(None, Slip::new(message::Product::NoWall), fixes)
            }
            Ok(Some(Wall::Corrugated(_))) => {
                self.fail(self.line(Name::Wall), Slip::new(message::Product::NoFriction))
            }
            _ => (),
        }
    }

    /// A number in place of a row's, where it has a line. Blank or 0 is turned away: a blank factor is not the row's.
    fn replacement<T: TryFrom<u64>>(&mut self, name: Name, measure: &Measure) -> Option<Option<T>> {
        let Some(line) = self.entry(name).cloned() else { return Some(None) };
        let number = match line.value.is_empty() {
            true => Some(0),
            false => self.number::<u64>(name, measure),
        };
        if number == Some(0) {
            let slip = Slip::new(message::Product::BlankBesideProduct(name));
            // on a corrugated wall a friction is due
            let fixes = if name == Name::Friction { Vec::new() } else { vec![line.left_out()] };
            self.fail_with(Some(line.number), slip, fixes);
            return None;
        }
        T::try_from(number?).ok().map(Some)
    }

    /// A number of the product; left blank it is 0, as on a sheet.
    fn property<T: TryFrom<u64>>(&mut self, name: Name, measure: &Measure) -> Option<T> {
        let number = self.take(name, |value| match value {
            "" => Ok(0),
            _ => value::quantity(value, measure),
        })?;
        T::try_from(number).ok()
    }
}
