//! The loads and the patch as JSON.

mod made;
mod patch;

pub use made::made_with;
pub use patch::patch;

use crate::description::Section;
use crate::doubt::Doubt;
use crate::library::Loads;
use crate::report::{Report, PROGRAM};
use crate::strake::strakes;
use crate::units::Units;

pub fn string(text: &str) -> String {
    let mut quoted = String::from("\"");
    for c in text.chars() {
        match c {
            '"' | '\\' => quoted.extend(['\\', c]),
            c if c < ' ' => quoted += &format!("\\u{:04x}", c as u32),
            c => quoted.push(c),
        }
    }
    quoted + "\""
}

/// A value that may be missing.
pub fn or_null(written: Option<String>) -> String {
    written.unwrap_or("null".to_string())
}

/// An object on one line.
pub fn object(fields: &[(&str, String)]) -> String {
    let fields = fields.iter().map(|(name, value)| format!("{}: {value}", string(name)));
    format!("{{{}}}", fields.collect::<Vec<String>>().join(", "))
}

/// An array with a line for each value.
pub fn lines(values: impl Iterator<Item = String>) -> String {
    let values: Vec<String> = values.map(|value| format!("\n    {value}")).collect();
    match values.is_empty() {
        true => "[]".to_string(),
        false => format!("[{}\n  ]", values.join(",")),
    }
}

/// The outermost object, with a line for each field.
pub fn document(fields: &[(&str, String)]) -> String {
    let fields = fields.iter().map(|(name, value)| format!("  {}: {value}", string(name)));
    format!("{{\n{}\n}}\n", fields.collect::<Vec<String>>().join(",\n"))
}

fn numbers<T: ToString>(values: &[T]) -> String {
    format!("[{}]", values.iter().map(T::to_string).collect::<Vec<String>>().join(", "))
}

/// The sum of p_he and p_p.
const WITH_PATCH: &str = "p_he_plus_p_p";

pub fn page(report: &Report, loads: &Loads) -> String {
    let Report { silo, units, .. } = report;
    let columns = report.columns();
    let rows = loads.rows().map(|row| {
        let names = columns.iter().map(|(name, _)| *name);
        object(&names.zip(report.row(&row)).collect::<Vec<(&str, String)>>())
    });
    let bottom = match silo.is_flat() {
        true => ("floor", units.show(loads.floor())),
        false => ("hopper", lines(loads.hopper().map(|quarter| object(&slope(quarter, *units))))),
    };
    let strakes = strakes(report, loads).into_iter().map(|strake| {
        object(&[
            ("height", strake.height.to_string()),
            ("lower_edge", strake.edge.to_string()),
            ("p_he", units.show(strake.p_he)),
            ("p_p", units.show(strake.p_p)),
            (WITH_PATCH, units.show(strake.with_patch())),
        ])
    });
    let notes = report.notes();
    document(&[
        ("program", string(PROGRAM)),
        ("file", string(report.file)),
        ("labels", labels(report)),
        ("silo", description(report)),
        ("units", object(&units_of(report))),
        ("depths", lines(rows)),
        bottom,
        ("strakes", lines(strakes)),
        ("made_with", made_with(silo)),
        ("by_hand", made::by_hand(report)),
        ("order", made::order(report, loads)),
        ("checklist", made::checklist(report, loads)),
        ("notes", lines(notes.iter().map(|note| string(note)))),
        ("doubts", doubts(report)),
    ])
}

/// The order's own lines.
fn labels(report: &Report) -> String {
    let labels = report.labels.iter().map(|(name, text)| (*name, string(text)));
    object(&labels.collect::<Vec<(&str, String)>>())
}

/// What is improbable, an object each.
pub fn doubts(report: &Report) -> String {
    lines(report.doubts().iter().map(|doubt| object(&doubt_fields(doubt))))
}

/// Code, name of the line and words.
pub fn doubt_fields(doubt: &Doubt) -> [(&'static str, String); 3] {
    [("code", doubt.code), ("name", doubt.name.word()), ("words", &*doubt.words)]
        .map(|(name, text)| (name, string(text)))
}

/// The unit of each number behind the description.
fn units_of(report: &Report) -> Vec<(&'static str, String)> {
    let pressure = report.units.pressure();
    let more = ["floor", "P_n", "P_t", WITH_PATCH, "p_vf_at_foot"].map(|name| (name, pressure));
    let lengths = ["height", "lower_edge"].map(|name| (name, "mm"));
    let all = report.columns().into_iter().chain(more).chain(lengths);
    all.map(|(name, unit)| (name, string(unit))).collect()
}

fn slope((k, normal, tangential): (usize, u32, u32), units: Units) -> [(&'static str, String); 3] {
    [("k", k.to_string()), ("P_n", units.show(normal)), ("P_t", units.show(tangential))]
}

/// The sheet's numbers: mm, N/m³, hundredths.
fn description(report: &Report) -> String {
    let silo = report.silo;
    let product = &silo.product;
    let section = match silo.section {
        Section::Circle(d) => ("diameter_mm", d.to_string()),
        Section::Rectangle(a, b) => ("sides_mm", numbers(&[a, b])),
    };
    let discharge = report.discharge();
    let [slenderness, horizontal, friction] = discharge.fractions().map(|(_, fraction)| {
        object(&[("top", fraction.top.to_string()), ("bottom", fraction.bottom.to_string())])
    });
    let mut fields = vec![
        section,
        ("product", string(&report.origin.shown(product))),
        ("weight_n_per_m3", product.weight.to_string()),
        ("ratio_hundredths", product.ratio.to_string()),
        ("friction_hundredths", product.friction.to_string()),
        ("factor_hundredths", product.factor.to_string()),
        ("factor_used_hundredths", product.factor_used().to_string()),
        ("filling_eccentricity_mm", silo.filling_eccentricity.to_string()),
        ("outlet_eccentricity_mm", silo.outlet_eccentricity.to_string()),
        ("hopper_height_mm", silo.hopper_height.to_string()),
        ("hopper_run_mm", silo.hopper_run.to_string()),
        ("strakes_mm", numbers(&silo.strakes)),
    ];
    if silo.headroom > 0 {
        fields.push(("headroom_mm", silo.headroom.to_string()));
    }
    fields.extend([
        ("kind", string(discharge.shape.word())),
        ("h_per_d_c", slenderness),
        ("C_h", horizontal),
        ("C_w", friction),
    ]);
    object(&fields)
}
