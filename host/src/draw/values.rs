//! The pressures at each strake's lower edge with what they are made with, and below them those on the floor or on the hopper and at the
//! wall's foot; lines lead to them from their places on the silo where these can be followed.

use super::chart::{Curve, CURVES};
use super::layout::{Layout, CHART, GUTTER, HOPPER_HEAD, TABLE};
use super::made;
use super::shown::{grouped, length, pressure};
use super::svg::{Point, Svg};
use crate::basis;
use crate::description::Description;
use crate::library::{Loads, P_HE, P_P, P_VF, P_W, ROW};
use crate::report::Report;

/// The columns before those of pressures.
const LENGTHS: [&str; 3] = ["strake", "height", "edge z"];
/// What p_he + p_p is, in lines beside those of what the other loads are made with.
const OF_SUM: [&str; 4] = ["", "the largest", "at any", "place"];
/// k, P_n and P_t, from the table's left end; each is flush right. Right of them is room for words.
const HOPPER_COLUMNS: [f64; 3] = [40.0, 141.0, 240.0];
const BESIDE_HOPPER: f64 = 258.0;
/// Between lines of small type, with lowered letters and without.
const LINE: f64 = 12.5;
const SMALL_LINE: f64 = 11.0;
/// Points of the slope nearer to each other than this have no dots, and nearer than that no numbers.
const DOTTED: f64 = 6.0;
const NUMBERED: f64 = 11.0;
/// From a row's middle to the line on which its digits stand.
const BASE: f64 = 3.7;

pub fn draw(svg: &mut Svg, report: &Report, layout: &Layout, loads: &Loads) {
    head(svg, report, layout);
    strakes(svg, report, layout);
    match report.silo.is_flat() {
        true => floor(svg, report, layout, loads),
        false => hopper(svg, report, layout, loads),
    }
}

/// Cells of a row; an empty one is left out.
fn cells(svg: &mut Svg, class: &str, y: f64, columns: &[f64], cells: &[String]) {
    for (x, cell) in columns.iter().zip(cells).filter(|(_, cell)| !cell.is_empty()) {
        svg.text(class, (*x, y), cell);
    }
}

/// From a place on the silo to its row.
fn leader(svg: &mut Svg, from: Point, row: f64) {
    svg.polyline("leader", &[from, (GUTTER, from.1), (TABLE.0, row)]);
}

/// The names of the pressures, in the order of `pressures`.
fn names() -> impl Iterator<Item = &'static str> {
    CURVES.iter().map(|curve| curve.name).chain(["p_he + p_p"])
}

/// Of a depth's row: the chart's five, and p_he + p_p, the largest at any place of that depth.
fn pressures(row: [u32; ROW]) -> impl Iterator<Item = u32> {
    CURVES.iter().map(move |curve| row[curve.load]).chain([row[P_HE] + row[P_P]])
}

/// Words, names of the columns, what each load is made with, and units.
fn head(svg: &mut Svg, report: &Report, layout: &Layout) {
    let (left, foot) = layout.table;
    let columns = layout.columns();
    let words = format!("At each strake's lower edge; {}", patch(report.silo));
    svg.text("start small", (left, foot - 79.0), &words);
    let names: Vec<String> = LENGTHS.into_iter().chain(names()).map(str::to_string).collect();
    cells(svg, "end head", foot - 65.0, &columns, &names);
    let mut y = foot - 52.0;
    let made = made::rows(&CURVES.map(Curve::made), &report.silo.product);
    for ((name, loads), of_sum) in made.into_iter().zip(OF_SUM) {
        let row: Vec<String> =
            [name].into_iter().chain(loads).chain([of_sum.to_string()]).collect();
        cells(svg, "end small", y, &columns[LENGTHS.len() - 1..], &row);
        y += SMALL_LINE;
    }
    let mut units = vec!["mm".to_string(); LENGTHS.len() - 1];
    units.resize(columns.len() - 1, report.units.pressure().to_string());
    cells(svg, "end small", y, &columns[1..], &units);
    svg.line("dimension", (left, foot - 4.0), (left + TABLE.1 - TABLE.0, foot - 4.0));
}

/// The eccentricity that the patch load takes.
fn patch(silo: &Description) -> String {
    let (filling, outlet) = (silo.filling_eccentricity, silo.outlet_eccentricity);
    let name = match filling.cmp(&outlet) {
        std::cmp::Ordering::Less => "e_o",
        std::cmp::Ordering::Equal => "e_i = e_o",
        std::cmp::Ordering::Greater => "e_i",
    };
    format!("p_p with the greater eccentricity, {name} = {}", length(filling.max(outlet)))
}

fn strakes(svg: &mut Svg, report: &Report, layout: &Layout) {
    let wall = layout.outline(report.silo).right + 3.0;
    let greatest = report.edges.rows().flat_map(pressures).max().unwrap_or(0);
    let class = layout.cells(greatest);
    let has_leaders = layout.has_strake_leaders(report.silo);
    let edges = report.silo.edges().zip(report.edges.rows());
    for (i, (((height, edge), loads), row)) in edges.zip(&layout.strake_rows).enumerate() {
        let (in_silo, in_chart) = (layout.silo_y(edge as f64), layout.chart_y(edge as f64));
        if has_leaders {
            leader(svg, (wall, in_silo), *row);
        }
        svg.line("leader", (CHART.0, in_chart), (CHART.1, in_chart));
        if layout.is_aligned() {
            svg.line("leader", (TABLE.1, *row), (CHART.0, in_chart));
        }
        let mut line = vec![(i + 1).to_string(), grouped(height.into()), grouped(edge)];
        line.extend(pressures(loads).map(|load| pressure(report.units, load)));
        cells(svg, class, row + BASE, &layout.columns(), &line);
    }
}

fn last_row(layout: &Layout) -> f64 {
    layout.strake_rows.last().copied().unwrap_or(layout.brim)
}

/// p_vf and P_w at the wall's foot, each with its equation, then with its Ks and mu.
fn at_foot(report: &Report) -> [[String; 2]; 2] {
    let units = report.units;
    let load = |load: usize, unit: &str| {
        let made = &basis::WALL[load - 1];
        let number = pressure(units, report.foot(load));
        let said = format!("{} at V {number} {unit} ({})", made.load, made.equation);
        [said, made::with(made, &report.silo.product)]
    };
    [load(P_VF, units.pressure()), load(P_W, units.per_metre())]
}

fn floor(svg: &mut Svg, report: &Report, layout: &Layout, loads: &Loads) {
    let (left, mut y) = (layout.table.0, last_row(layout) + 21.0);
    let load = pressure(report.units, loads.floor());
    let unit = report.units.pressure();
    let text = format!("Flat floor, vertical load 1.2 p_vf at V (5.13): {load} {unit}");
    svg.text("start note", (left, y), &text);
    for lines in at_foot(report) {
        y += LINE;
        svg.text("start small", (left, y), &lines.join(", "));
    }
}

/// From the wall's foot, k = 4, down to the outlet.
fn hopper(svg: &mut Svg, report: &Report, layout: &Layout, loads: &Loads) {
    let Some(first) = layout.hopper_rows.first() else { return };
    let head = (first - HOPPER_HEAD).max(last_row(layout));
    let left = layout.table.0;
    let columns = HOPPER_COLUMNS.map(|x| left + x);
    let title = "Hopper, at k quarters of its slope up from the outlet";
    svg.text("start small", (left, head + 19.0), title);
    let unit = report.units.pressure();
    let names = ["k".to_string(), format!("P_n normal, {unit}"), format!("P_t friction, {unit}")];
    cells(svg, "end head", head + 32.0, &columns, &names);
    svg.line("dimension", (left, head + 36.0), (columns[2] + 2.0, head + 36.0));
    beside_hopper(svg, report, (left + BESIDE_HOPPER, head + 19.0));
    quarters(svg, report.silo, layout);
    let loads: Vec<(usize, u32, u32)> = loads.hopper().collect();
    for ((k, normal, friction), row) in loads.into_iter().rev().zip(&layout.hopper_rows) {
        let [normal, friction] = [normal, friction].map(|load| pressure(report.units, load));
        let line = [format!("k = {k}"), normal, friction];
        cells(svg, layout.cells(0), row + BASE, &columns, &line);
    }
}

/// The points on the slope, as far as they can be told apart, with lines to their rows or, below the wall's foot, with k beside them.
fn quarters(svg: &mut Svg, silo: &Description, layout: &Layout) {
    let slope = layout.slope(silo);
    let apart = (slope[1].0 - slope[0].0, slope[0].1 - slope[1].1);
    let has_leaders = layout.has_hopper_leaders(silo);
    for (k, (point, row)) in slope.iter().rev().zip(&layout.hopper_rows).enumerate() {
        let k = slope.len() - 1 - k;
        if has_leaders {
            leader(svg, *point, *row);
        } else if apart.1 >= NUMBERED && k < slope.len() - 1 {
            svg.text("start small", (point.0 + 7.0, point.1 + 6.0), &format!("k = {k}"));
        }
        if apart.0.hypot(apart.1) >= DOTTED {
            svg.dot("point", *point);
        }
    }
}

/// What the hopper's loads are made with, and the loads at the wall's foot that stand above it.
fn beside_hopper(svg: &mut Svg, report: &Report, (x, y): Point) {
    let product = &report.silo.product;
    let made = basis::loads(report.silo);
    let of = |load: &str| made.iter().find(|made| made.load == load);
    let mut lines = Vec::new();
    if let (Some(normal), Some(n3), Some(friction)) = (of("P_n"), of("n3"), of("P_t")) {
        lines.push(format!("P_n with p_vf at V ({}), n3 ({})", normal.equation, n3.equation));
        lines.push(format!("P_t ({}), {}", friction.equation, made::with(friction, product)));
    }
    lines.extend(at_foot(report).into_iter().flatten());
    for (i, line) in lines.iter().enumerate() {
        svg.text("start small", (x, y + LINE * i as f64), line);
    }
}
