//! Rows of what the loads are made with and of what an order needs, each a name, a value, a unit or where it comes from, and the fraction
//! from which the value is rounded.

use super::Rows;
use crate::basis::{self, Basis, Made, PATCH, Q_DIGITS};
use crate::capacity::Capacity;
use crate::description::Product;
use crate::fraction::{Fraction, DIGITS};
use crate::library::{Loads, P_VF};
use crate::number::{hundredths, tenths};
use crate::report::Report;
use crate::units::thousandths;

impl Rows {
    /// A mean and what it is multiplied by.
    fn mean(self, name: String, value: Fraction, times: u16, mean: u16, by: &str) -> String {
        let [times, mean] = [Fraction::hundredths(times).decimal(), hundredths(mean.into())]
            .map(|number| self.dialect.number(&number));
        self.exact(&name, value, DIGITS, &format!("{times} x {mean} ({by})"))
    }
}

pub fn rows(report: &Report, loads: &Loads, rows: Rows) -> String {
    let made: String = basis::loads(report.silo)
        .iter()
        .map(|made| made_with(made, &report.silo.product, rows))
        .collect();
    made + &by_hand(report, rows) + &order(report, loads, rows)
}

/// What the patch load is made with.
pub fn patch(report: &Report, rows: Rows) -> String {
    made_with(&PATCH, &report.silo.product, rows)
        + &rows.exact("beta", Basis::of(report.silo).beta, DIGITS, "")
}

fn made_with(made: &Made, product: &Product, rows: Rows) -> String {
    let Made { load, with, .. } = made;
    let equation = format!("ENV {}", made.equation);
    let formula = rows.dialect.text(made.formula);
    let mut page = rows.part("silo", format!("{load} equation"), &[(2, equation), (3, formula)]);
    if let (Some(times), Some(ratio)) = (with.ratio_times, with.ratio(product)) {
        page += &rows.mean(format!("{load} Ks"), ratio, times, product.ratio, with.equation);
    }
    let (friction, times) = (with.friction(product), with.friction_times);
    page + &rows.mean(format!("{load} mu"), friction, times, product.friction, with.equation)
}

fn by_hand(report: &Report, rows: Rows) -> String {
    let basis = Basis::of(report.silo);
    let unit = report.units.pressure();
    let pressure = |pascals: Fraction| report.units.pascals(pascals);
    let mut page = rows.exact("R", basis.radius, DIGITS, "mm");
    for filling in &basis.filling {
        let load = filling.made.load;
        page += &rows.exact(&format!("{load} P"), pressure(filling.limit), DIGITS, unit);
        page += &rows.exact(&format!("{load} z0"), filling.z0, DIGITS, "mm");
        page += &rows.exact(&format!("{load} q at V"), filling.q_at_foot, Q_DIGITS, "");
    }
    page += &rows.exact("beta", basis.beta, DIGITS, "");
    let side = rows.dialect.number(&tenths(report.silo.section.patch_side()));
    page += &rows.fact("s", side, "mm");
    if let Some(hopper) = basis.hopper {
        page += &rows.exact("sin^2 alpha", hopper.sine_squared, Q_DIGITS, "");
        for (name, pascals) in [("B", hopper.base), ("n3", hopper.n3)] {
            page += &rows.exact(name, pressure(Fraction::whole(pascals)), DIGITS, unit);
        }
    }
    let foot = rows.dialect.number(&report.units.show(report.foot(P_VF)));
    page + &rows.fact("p_vf(V)", foot, unit)
}

fn order(report: &Report, loads: &Loads, rows: Rows) -> String {
    let facts = Capacity::of(report, loads).facts();
    let row = |name: &str, value: u128, unit| {
        rows.fact(&rows.dialect.text(name), rows.dialect.number(&thousandths(value)), unit)
    };
    facts.iter().map(|fact| row(fact.name, fact.thousandths, fact.unit)).collect()
}
