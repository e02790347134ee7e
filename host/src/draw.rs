//! The drawings: the silo to scale at the left, values at each strake's edge and on the bottom in
//! the middle, pressures over depth at the right; or, at the right, the patch of a circle. Notes
//! and title block at the foot. Positions are worked out in floating point; every value that is
//! written comes from the sheet or from the library.

mod block;
mod chart;
mod hopper;
mod layout;
mod made;
mod shell;
mod shown;
mod silo;
mod squares;
mod svg;
mod values;
mod wrap;

use crate::description::{Description, Section};
use crate::library::Loads;
use crate::patch::Patch;
use crate::report::{Report, BLANK_ANGLE};
use layout::{Layout, LEFT, TABLE, TOP};
use shown::{degrees, length};
use std::path::Path;
use svg::{Svg, NOTE, TITLE};

/// From the title's last line down to the brim: heads of table and chart, or the silo's dimensions alone.
const HEADS: f64 = 97.0;
const DIMENSIONS: f64 = 66.0;

/// `curves` are the loads of the same silo at depths near to each other.
pub fn page(report: &Report, loads: &Loads, curves: &Loads) -> String {
    let mut svg = Svg::default();
    let brim = title(&mut svg, report, TABLE.1) + HEADS;
    let notes = report.notes().into_iter().chain([made::by_hand(report)]);
    let lowest = block::draw(&mut svg, report, notes.collect()) - 10.0;
    let layout = Layout::of(report.silo, brim, lowest);
    silo::draw(&mut svg, report.silo, &layout);
    silo::numbers(&mut svg, report.silo, &layout, &[]);
    silo::numbers_beside(&mut svg, report.silo, &layout, &[]);
    values::draw(&mut svg, report, &layout, loads);
    silo::headroom(&mut svg, report.silo, &layout);
    chart::draw(&mut svg, report, &layout, curves);
    svg.page(&name(report), report.file, "")
}

/// The patch of a circle.
pub fn patch(patch: &Patch) -> String {
    let report = &patch.report;
    let mut svg = Svg::default();
    let below = title(&mut svg, report, shell::FACTS - 8.0);
    let top = shell::facts(&mut svg, patch).max(below) + 24.0;
    let lowest = block::draw(&mut svg, report, patch.notes()) - 10.0;
    let layout = Layout::beside(report.silo, shell::SILO, below + DIMENSIONS, lowest);
    silo::draw(&mut svg, report.silo, &layout);
    let edges = shell::band(&mut svg, patch, &layout);
    silo::numbers(&mut svg, report.silo, &layout, &edges);
    let [brim, middle] = [0, patch.depth].map(|depth| layout.silo_y(depth.into()));
    let lines = [brim, middle, (edges[0] + edges[1]) / 2.0];
    silo::numbers_beside(&mut svg, report.silo, &layout, &lines);
    silo::headroom(&mut svg, report.silo, &layout);
    shell::plan(&mut svg, patch, top, lowest);
    svg.page(&name(report), report.file, shell::STYLE)
}

/// The file's name without its ending.
fn name(report: &Report) -> String {
    let stem = Path::new(report.file).file_stem().map(|stem| stem.to_string_lossy().into_owned());
    stem.unwrap_or_else(|| "silo".to_string())
}

/// The name, product, kind and sizes, as far as `right`; the last line's height. A name that is too long
/// for a line stands in the title block alone.
fn title(svg: &mut Svg, report: &Report, right: f64) -> f64 {
    let (name, most) = (name(report), right - LEFT);
    // bold letters are up to a fifth wider
    if 1.2 * wrap::width(&name, TITLE) <= most {
        svg.plain("start title", (LEFT, TOP + 15.0), &name);
    }
    let mut y = TOP + 17.0;
    let sizes = sizes(report.silo).into_iter().map(|part| part.replace(' ', "\u{a0}"));
    let product = [BLANK_ANGLE, " N/m3", "Ks ", "mu ", "C0 "]
        .iter()
        .fold(report.product(), |text, part| text.replace(part, &part.replace(' ', "\u{a0}")));
    let sizes = sizes.collect::<Vec<String>>().join(", ");
    for text in [product, report.discharge().shown(), sizes] {
        for line in wrap::lines(&text, NOTE, |_| most) {
            y += 14.5;
            svg.text("start note", (LEFT, y), &line);
        }
    }
    y
}

/// Each size with its name in one line.
fn sizes(silo: &Description) -> Vec<String> {
    let mut parts = match silo.section {
        Section::Circle(d) => vec![format!("Circle d {}", length(d))],
        Section::Rectangle(a, b) => vec![
            format!("Rectangle a {}", length(a)),
            format!("b {}", length(b)),
            "seen across the shorter side".to_string(),
        ],
    };
    match silo.is_flat() {
        true => parts.push("flat floor".to_string()),
        false => parts.extend([
            format!("hopper H {}", length(silo.hopper_height)),
            format!("run r {}", length(silo.hopper_run)),
            degrees(silo),
        ]),
    }
    let height = if silo.headroom > 0 { "V - g + H" } else { "V + H" };
    parts.extend([
        format!("height h = {height} = {}", length(silo.height())),
        format!("e_i {}", length(silo.filling_eccentricity)),
        format!("e_o {}", length(silo.outlet_eccentricity)),
    ]);
    parts
}
