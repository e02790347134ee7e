//! What the loads of a drawing are made with: their equations, and Ks and mu as they act (7.1 to 7.3).

use crate::basis::{Basis, Filling, Made, Q_DIGITS};
use crate::description::Product;
use crate::fraction::Fraction;
use crate::report::Report;

/// A row above a table's columns: its name, and a cell for each load.
pub type Row = (String, Vec<String>);

/// Above these loads: the equation of each, and Ks and mu as they act, with a row for each factor and the equations that give it.
pub fn rows(loads: &[Made], product: &Product) -> Vec<Row> {
    let equations = loads.iter().map(|made| made.equation.to_string()).collect();
    let mut rows = vec![("equation".to_string(), equations)];
    rows.extend(factors(loads, "Ks", |made| made.with.ratio_times.zip(made.with.ratio(product))));
    rows.extend(factors(loads, "mu", |made| {
        Some((made.with.friction_times, made.with.friction(product)))
    }));
    rows
}

/// A row for each factor on Ks or mu; a load stands in the row of its own.
fn factors(
    loads: &[Made],
    name: &str,
    acting: impl Fn(&Made) -> Option<(u16, Fraction)>,
) -> Vec<Row> {
    let times = |made: &Made| acting(made).map(|(times, _)| times);
    let row = |factored: u16| {
        let with = loads.iter().filter(|made| times(made) == Some(factored));
        let by = distinct(with.map(|made| made.with.equation)).join(", ");
        let cell = |made: &Made| acting(made).filter(|(times, _)| *times == factored);
        let cells = loads.iter().map(|made| cell(made).map(|(_, value)| value.decimal()));
        (
            format!("{} {name} ({by})", factor(factored)),
            cells.map(Option::unwrap_or_default).collect(),
        )
    };
    distinct(loads.iter().filter_map(times)).into_iter().map(row).collect()
}

fn distinct<T: Ord>(all: impl Iterator<Item = T>) -> Vec<T> {
    let mut all: Vec<T> = all.collect();
    all.sort_unstable();
    all.dedup();
    all
}

/// Of Ks or mu, from hundredths.
fn factor(times: u16) -> String {
    Fraction::hundredths(times).decimal()
}

/// Ks and mu of a load, and which equation gives them.
pub fn with(made: &Made, product: &Product) -> String {
    let ratio = made.with.ratio_times.zip(made.with.ratio(product));
    let friction = (made.with.friction_times, made.with.friction(product));
    let shown = |name: &str, (times, value): (u16, Fraction)| {
        format!("{} {name} = {}", factor(times), value.decimal())
    };
    let parts: Vec<String> =
        ratio.map(|ratio| shown("Ks", ratio)).into_iter().chain([shown("mu", friction)]).collect();
    format!("{} ({})", parts.join(", "), made.with.equation)
}

/// What a hand needs beside that to make the loads.
pub fn by_hand(report: &Report) -> String {
    let (basis, units) = (Basis::of(report.silo), report.units);
    let filling = |(loads, Filling { limit, z0, q_at_foot, .. }): (&str, &Filling)| {
        let (limit, z0, q) = (units.exact(*limit), z0.about(3), q_at_foot.about(Q_DIGITS));
        format!("{loads}: P {limit} {}, z0 {z0} mm, q {q}", units.pressure())
    };
    let loads = ["p_hf", "p_wf and P_w", "p_vf"].into_iter().zip(&basis.filling);
    let filling = loads.map(filling).collect::<Vec<String>>().join("; ");
    let hopper = basis.hopper.map(|hopper| {
        let [base, n3] = [hopper.base, hopper.n3].map(|n| units.exact(Fraction::whole(n)));
        let sine = hopper.sine_squared.about(Q_DIGITS);
        format!("; sin^2 alpha {sine}, B {base}, n3 {n3} {}", units.pressure())
    });
    let (radius, beta) = (basis.radius.about(3), basis.beta.shown());
    format!("By hand, q at V: R {radius} mm; {filling}; beta {beta}{}.", hopper.unwrap_or_default())
}
