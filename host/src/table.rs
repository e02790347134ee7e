//! The loads as tables that a person reads, at most 80 characters wide.

mod made;

use crate::basis::{self, Made};
use crate::capacity::{self, Capacity};
use crate::checklist;
use crate::description::Section;
use crate::library::{Loads, P_VF};
use crate::patch::{Patch, LAW};
use crate::report::{wrapped, wrapped_in_parts, Report, PROGRAM};
use crate::strake;
use crate::text;
use crate::units::{thousandths, Units};

const LEGEND: &str = "
filling:   p_hf horizontal, p_wf wall friction, p_vf vertical,
           P_w wall friction from the brim to z, per metre of perimeter
discharge: p_he horizontal, p_we wall friction, p_p patch load
ENV:       the load's equation; by: that of the Ks and mu it is made with
";

/// Characters that a line of words keeps to, and a line of facts at most.
const WIDTH: usize = 76;
const WIDEST: usize = 80;
/// Before the further lines of one fact.
const INDENT: &str = "  ";

pub fn page(report: &Report, loads: &Loads) -> String {
    let begins = match report.silo.headroom {
        0 => String::new(),
        headroom => format!("; the grain begins at {headroom} mm"),
    };
    let mut page =
        format!("{}\nLoads on the wall at depth z below the brim{begins}\n", heading(report));
    let columns = report.columns();
    page += &line(report, columns.map(|(name, _)| name));
    page += &line(report, columns.map(|(_, unit)| unit));
    page += &made_with(report, &basis::WALL);
    for row in loads.rows() {
        page += &line(report, report.row(&row));
    }
    page += LEGEND;
    page += &bottom(report, loads);
    page += &strakes(report, loads);
    page += &made::section(report);
    page += &order(report, loads);
    page += &notes(&report.notes());
    page += &checked(report, loads);
    format!("{page}\n{PROGRAM}\n")
}

/// Below the heads of columns: each load's equation, the Ks and mu with which it is made, and by which equation it has those.
fn made_with(report: &Report, loads: &[Made]) -> String {
    let product = &report.silo.product;
    type Cell<'a> = &'a dyn Fn(&Made) -> String;
    let rows: [(&str, Cell); 4] = [
        ("ENV", &|made| made.equation.split(' ').next().unwrap_or_default().to_string()),
        ("Ks", &|made| made.with.ratio(product).map(|ratio| ratio.shown()).unwrap_or_default()),
        ("mu", &|made| made.with.friction(product).shown()),
        ("by", &|made| made.with.equation.to_string()),
    ];
    let row = |(name, cell): (&str, Cell)| {
        let cells = loads.iter().map(cell);
        line(report, [name.to_string()].into_iter().chain(cells))
    };
    rows.into_iter().map(row).collect()
}

/// The patch of a circle; round a shell every `step` degrees.
pub fn patch(patch: &Patch, step: usize) -> String {
    let report = &patch.report;
    let mut page = format!("{}\n", heading(report));
    for fact in patch.facts(str::to_string).into_iter().chain([made::patch(report)]) {
        page += &facts(&fact);
    }
    if patch.is_round() {
        page += "\n";
        page += &line(report, ["degrees", "p_ps"]);
        page += &line(report, ["", report.units.pressure()]);
        for (degree, pressure) in patch.every(step) {
            page += &line(report, [degree.to_string(), report.units.signed(pressure)]);
        }
        page += &format!("\n{LAW}\n");
    }
    format!("{page}{}\n{PROGRAM}\n", notes(&patch.notes()))
}

/// The file, the order's own lines, and the sheet's numbers.
fn heading(report: &Report) -> String {
    let silo = report.silo;
    let mut heading = format!("{}\n", report.file);
    for (name, text) in report.labels {
        heading += &hanging("", &format!("{name}: {text}"));
    }
    let section = match silo.section {
        Section::Circle(d) => format!("circle d {d} mm"),
        Section::Rectangle(a, b) => format!("rectangle {a} x {b} mm"),
    };
    let bottom = match silo.is_flat() {
        true => "flat floor".to_string(),
        false => format!(
            "hopper H {} mm, run r {} mm ({} degrees, outlet {} mm)",
            silo.hopper_height,
            silo.hopper_run,
            silo.degrees(),
            silo.outlet_width()
        ),
    };
    let headroom = match silo.headroom {
        0 => String::new(),
        headroom => format!(", headroom g {headroom} mm"),
    };
    let [filling, outlet] = [silo.filling_eccentricity, silo.outlet_eccentricity];
    let said = [
        format!(
            "{section}, wall V {} mm in strakes of {} mm{headroom}, {bottom}",
            silo.wall_height(),
            text::runs(&silo.strakes),
        ),
        report.product(),
        report.discharge().shown(),
        format!("eccentricities: filling e_i {filling} mm, outlet e_o {outlet} mm"),
    ];
    heading.extend(said.iter().map(|said| facts(said)));
    heading
}

fn bottom(report: &Report, loads: &Loads) -> String {
    let Report { silo, units, .. } = report;
    let unit = units.pressure();
    let all = basis::loads(silo);
    let own = |name: &&str| all.iter().find(|made| made.load == *name).copied();
    let made =
        |names: &[&str]| made_with(report, &names.iter().filter_map(own).collect::<Vec<Made>>());
    let foot = units.show(report.foot(P_VF));
    if silo.is_flat() {
        let head = line(report, ["", "floor", "p_vf(V)"]) + &line(report, ["", unit, unit]);
        let floor = line(report, [String::new(), units.show(loads.floor()), foot]);
        let made = made(&["floor", "p_vf"]);
        return format!(
            "\nFlat floor, vertical (5.13), beside p_vf at the wall's foot V\n{head}{made}{floor}"
        );
    }
    let mut page =
        "\nHopper, k quarters of its slope up from the outlet: P_n normal, P_t friction;\n\
         beside p_vf at the wall's foot V\n"
            .to_string();
    page += &(line(report, ["k", "P_n", "P_t", "p_vf(V)"]) + &line(report, ["", unit, unit, unit]));
    page += &made(&["P_n", "P_t", "p_vf"]);
    for (k, normal, tangential) in loads.hopper() {
        let [normal, tangential] = [normal, tangential].map(|load| units.show(load));
        page += &line(report, [k.to_string(), normal, tangential, foot.clone()]);
    }
    page
}

const STRAKES: &str = "
Strakes, top first: horizontal pressure on discharge at the lower edge, alone
and with the patch load, the greatest at any place of that edge
";

fn strakes(report: &Report, loads: &Loads) -> String {
    let units = report.units;
    let mut page = STRAKES.to_string();
    let unit = units.pressure();
    page += &line(report, ["strake", "height", "edge", "p_he", "p_p", "p_he+p_p"]);
    page += &line(report, ["", "mm", "mm", unit, unit, unit]);
    for (i, strake) in strake::strakes(report, loads).iter().enumerate() {
        let sizes = [i as u64 + 1, strake.height.into(), strake.edge].map(|size| size.to_string());
        let pressures = [strake.p_he, strake.p_p, strake.with_patch()].map(|load| units.show(load));
        page += &line(report, sizes.into_iter().chain(pressures));
    }
    page
}

/// Capacity and total forces.
fn order(report: &Report, loads: &Loads) -> String {
    let mut page = "\nFor the order\n".to_string();
    for fact in Capacity::of(report, loads).facts() {
        page += &format!("{:<34}{:>16} {}\n", fact.name, thousandths(fact.thousandths), fact.unit);
    }
    page.extend(capacity::notes(report).iter().map(|note| hanging("- ", note)));
    page
}

/// What the loads leave out.
fn notes(notes: &[String]) -> String {
    let notes: String = notes.iter().map(|note| hanging("- ", note)).collect();
    format!("\nNotes\n{notes}")
}

fn checked(report: &Report, loads: &Loads) -> String {
    let mut page = "\nChecklist\n".to_string();
    for item in checklist::items(report, loads) {
        let mark = if item.ok { "[x] " } else { "[ ] " };
        page += &hanging(mark, &format!("{}: {}", item.line, item.words));
    }
    page
}

/// Facts with commas or semicolons between them, in one line where they fit.
fn facts(facts: &str) -> String {
    match facts.chars().count() <= WIDEST {
        true => format!("{facts}\n"),
        false => {
            let lines = wrapped_in_parts(facts, WIDEST - INDENT.len());
            lines.join(&format!("\n{INDENT}")) + "\n"
        }
    }
}

/// Words behind a mark; further lines stand under the first word, or a little in where there is no mark.
fn hanging(mark: &str, words: &str) -> String {
    let indent = mark.len().max(INDENT.len());
    let lines = wrapped(words, WIDTH - indent);
    format!("{mark}{}\n", lines.join(&format!("\n{}", " ".repeat(indent))))
}

/// Fields of nine characters, flush right. In kPa and kN/m the first has seven and the others ten, so that at least one space stands
/// before each: no load has more than eight digits, and nothing in the first column more than six.
fn line<T: std::fmt::Display>(report: &Report, fields: impl IntoIterator<Item = T>) -> String {
    let width = |place: usize| match (report.units, place) {
        (Units::Whole, _) => 9,
        (Units::Kilo, 0) => 7,
        (Units::Kilo, _) => 10,
    };
    let fields = fields.into_iter().enumerate();
    let line: String =
        fields.map(|(place, field)| format!("{field:>width$}", width = width(place))).collect();
    format!("{line}\n")
}
