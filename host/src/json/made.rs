//! What the loads are made with, what an order needs, and the checklist.

use super::{lines, object, string};
use crate::basis::{self, Basis, Filling, Made, Q_DIGITS};
use crate::capacity::{self, Capacity};
use crate::checklist;
use crate::description::{Description, Product};
use crate::fraction::{Fraction, DIGITS};
use crate::library::{Loads, P_VF};
use crate::number::tenths;
use crate::report::Report;
use crate::units::thousandths;

type Field = (&'static str, String);

/// Of a silo that the library accepts, a line for each load: the equation, the Ks and mu that act, and for filling loads P, z0 and q.
pub fn made_with(silo: &Description) -> String {
    let basis = Basis::of(silo);
    lines(basis::loads(silo).into_iter().map(|made| {
        let filling = basis.filling.iter().find(|filling| filling.made == made);
        let mut fields = load(&made, &silo.product);
        fields.extend(filling.into_iter().flat_map(quantities));
        object(&fields)
    }))
}

/// What the patch load is made with.
pub fn patch(silo: &Description) -> String {
    let mut fields = load(&basis::PATCH, &silo.product);
    fields.push(("beta", exact(Basis::of(silo).beta)));
    object(&fields)
}

fn load(made: &Made, product: &Product) -> Vec<Field> {
    let times = |hundredths: u16| Fraction::hundredths(hundredths).decimal();
    let mut fields = vec![
        ("load", string(made.load)),
        ("equation", string(made.equation)),
        ("formula", string(made.formula)),
        ("by", string(made.with.equation)),
    ];
    if let (Some(hundredths), Some(ratio)) = (made.with.ratio_times, made.with.ratio(product)) {
        fields.extend([("Ks_times", times(hundredths)), ("Ks", ratio.decimal())]);
    }
    let friction = made.with.friction(product).decimal();
    fields.extend([("mu_times", times(made.with.friction_times)), ("mu", friction)]);
    fields
}

fn quantities(filling: &Filling) -> [Field; 3] {
    [
        ("P_pa", exact(filling.limit)),
        ("z0_mm", exact(filling.z0)),
        ("q_at_foot", exact_to(Q_DIGITS, filling.q_at_foot)),
    ]
}

fn exact(fraction: Fraction) -> String {
    exact_to(DIGITS, fraction)
}

/// The fraction, and its decimal rounded to so many digits.
fn exact_to(digits: usize, fraction: Fraction) -> String {
    let [top, bottom] = [fraction.top, fraction.bottom].map(|number| number.to_string());
    object(&[("top", top), ("bottom", bottom), ("decimal", fraction.to(digits))])
}

/// The other quantities from which the loads are made.
pub fn by_hand(report: &Report) -> String {
    let basis = Basis::of(report.silo);
    let mut fields = vec![
        ("R_mm", exact(basis.radius)),
        ("beta", exact(basis.beta)),
        ("s_mm", tenths(report.silo.section.patch_side())),
        ("p_vf_at_foot", report.units.show(report.foot(P_VF))),
    ];
    if let Some(hopper) = basis.hopper {
        fields.extend([
            ("sin2_alpha", exact_to(Q_DIGITS, hopper.sine_squared)),
            ("B_pa", hopper.base.to_string()),
            ("n3_pa", hopper.n3.to_string()),
        ]);
    }
    object(&fields)
}

/// Volumes, mass and total forces, and what they rest on.
pub fn order(report: &Report, loads: &Loads) -> String {
    let facts = Capacity::of(report, loads).facts();
    let facts = facts.into_iter().map(|fact| (fact.key, thousandths(fact.thousandths)));
    let notes: Vec<String> = capacity::notes(report).into_iter().map(string).collect();
    object(&facts.chain([("notes", format!("[{}]", notes.join(", ")))]).collect::<Vec<Field>>())
}

pub fn checklist(report: &Report, loads: &Loads) -> String {
    lines(checklist::items(report, loads).into_iter().map(|item| {
        object(&[
            ("line", string(item.line)),
            ("ok", item.ok.to_string()),
            ("words", string(&item.words)),
        ])
    }))
}
