//! What the loads are made with, so that a person can make them by hand.

use super::facts;
use crate::basis::{
    self, Basis, Hopper, HIGH_FRICTION, HORIZONTAL, PATCH, Q_DIGITS, VERTICAL, WALL_FRICTION,
};
use crate::fraction::Fraction;
use crate::library::P_VF;
use crate::number::{hundredths, tenths};
use crate::report::Report;

/// Digits of a mm: with them and as many of a Pa the greatest P_w comes out to 0.25 N/m.
const LENGTH_DIGITS: usize = 3;

pub fn section(report: &Report) -> String {
    let basis = Basis::of(report.silo);
    means(report) + &filling(report, &basis) + &formulas(report, &basis)
}

/// What the patch load is made with.
pub fn patch(report: &Report) -> String {
    let said = PATCH.with.said(&report.silo.product);
    let beta = Basis::of(report.silo).beta.shown();
    format!("made with {said}, beta = {beta} (5.25)")
}

/// The means, and which load has which multiple of them.
fn means(report: &Report) -> String {
    let product = &report.silo.product;
    let [ratio, friction] = [product.ratio, product.friction].map(|n| hundredths(n.into()));
    let mut page =
        format!("\nMade with the means Ks {ratio} and mu {friction}, times 0.9 or 1.15\n");
    let row = |[loads, ratio_times, ratio, friction_times, friction, by]: [&str; 6]| {
        format!("{loads:<24}{ratio_times:>6}{ratio:>9}{friction_times:>8}{friction:>9}{by:>6}\n")
    };
    page += &row(["load", "Ks x", "Ks", "mu x", "mu", "by"]);
    let all = basis::loads(report.silo);
    for with in [HORIZONTAL, VERTICAL, WALL_FRICTION, HIGH_FRICTION] {
        let loads = all.iter().filter(|made| made.with == with).map(|made| made.load);
        let loads = loads.collect::<Vec<&str>>().join(", ");
        if loads.is_empty() {
            continue;
        }
        let times = |hundredths: u16| Fraction::hundredths(hundredths).shown();
        page += &row([
            &loads,
            &with.ratio_times.map(times).unwrap_or_default(),
            &with.ratio(product).map(Fraction::shown).unwrap_or_default(),
            &times(with.friction_times),
            &with.friction(product).shown(),
            with.equation,
        ]);
    }
    page
}

const BY_HAND: &str = "
By hand: p_hf, p_wf and p_vf lie above their formula by less than 2 Pa, P_w by
less than 2 N/m; the other loads are theirs, rounded up to whole Pa
";

/// P, z0 and q of each filling load.
fn filling(report: &Report, basis: &Basis) -> String {
    let mut page = BY_HAND.to_string();
    page += &facts(&format!(
        "R = A/U = {} mm, gamma {} N/m3; z0 = R/(Ks mu) (5.6), q = z/z0, C_z = 1 - e^(-q) (5.5); z from the grain's surface, V the wall's \
         foot",
        basis.radius.about(LENGTH_DIGITS),
        report.silo.product.weight
    ));
    let unit = report.units.pressure();
    page += &row(["load", "P =", &format!("P, {unit}"), "z0, mm", "q at V"]);
    for filling in &basis.filling {
        let formula = filling.made.formula.split(" = ").nth(1).unwrap_or_default();
        page += &row([
            filling.made.load,
            formula,
            &report.units.exact(filling.limit),
            &filling.z0.about(LENGTH_DIGITS),
            &filling.q_at_foot.about(Q_DIGITS),
        ]);
    }
    page
}

fn row([load, formula, limit, z0, q]: [&str; 5]) -> String {
    format!("{load:<6}{formula:<16}{limit:>19}{z0:>18}{q:>18}\n")
}

/// The formulas over these, with their other quantities.
fn formulas(report: &Report, basis: &Basis) -> String {
    let discharge = report.discharge();
    let side = tenths(report.silo.section.patch_side());
    let loads = basis::loads(report.silo);
    let made = |load: &str| {
        let made = loads.iter().filter(|made| made.load == load);
        made.map(|made| format!("{load} = {} ({})", made.formula, made.equation)).collect()
    };
    let mut lines = vec![
        "p_hf, p_wf and p_vf = P C_z (5.3, 5.2, 5.4), P_w = P (z - z0 C_z) (5.7), z and z0 in m there".to_string(),
        format!(
            "{}, C_h {}; {}, C_w {}; h/d_c {} ({})",
            made("p_he"),
            discharge.horizontal.shown(),
            made("p_we"),
            discharge.friction.shown(),
            discharge.slenderness.shown(),
            discharge.shape.equations()
        ),
        format!(
            "{}, beta = 1 + 4 e/d_c = {} (5.25), e the larger eccentricity; s = 0.2 d_c = {side} mm (5.10)",
            made("p_p"),
            basis.beta.shown()
        ),
    ];
    lines.extend(match &basis.hopper {
        None => vec![made("floor")],
        Some(hopper) => hopper_formulas(report, hopper, made),
    });
    let foot = report.units.show(report.foot(P_VF));
    lines.push(format!("p_vf(V) = {foot} {}", report.units.pressure()));
    lines.iter().map(|line| facts(line)).collect()
}

fn hopper_formulas(report: &Report, hopper: &Hopper, made: impl Fn(&str) -> String) -> Vec<String> {
    let unit = report.units.pressure();
    let pressure = |pascals: u128| report.units.exact(Fraction::whole(pascals));
    vec![
        format!("{}, n3 and the rest each rounded up; {}, mu the high one", made("P_n"), made("P_t")),
        format!(
            "sin^2 alpha = H^2/(H^2 + r^2) = {}, cos^2 = 1 - sin^2; B = 3 R gamma 1.15 Ks sin^2 = {} {unit}, n3 = B/root(0.9 mu) = {} {unit} \
             (5.18), both rounded up",
            hopper.sine_squared.about(Q_DIGITS),
            pressure(hopper.base),
            pressure(hopper.n3)
        ),
    ]
}
