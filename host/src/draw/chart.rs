//! Pressures over depth.

use super::layout::{round_step, Layout, CHART};
use super::shown::{grouped, round_pressure};
use super::svg::Svg;
use crate::basis::{Made, WALL};
use crate::description::Description;
use crate::library::{Loads, P_HE, P_HF, P_P, P_WE, P_WF, Z};
use crate::report::Report;

/// A pressure's column, its name, and the classes of its line.
pub struct Curve {
    pub load: usize,
    pub name: &'static str,
    words: &'static str,
    class: &'static str,
}

const fn curve(load: usize, name: &'static str, words: &'static str, class: &'static str) -> Curve {
    Curve { load, name, words, class }
}

impl Curve {
    /// What it is made with.
    pub fn made(self) -> Made {
        WALL[self.load - 1]
    }
}

pub const CURVES: [Curve; 5] = [
    curve(P_HF, "p_hf", "horizontal, filling", "horizontal filling"),
    curve(P_HE, "p_he", "horizontal, discharge, without p_p", "horizontal"),
    curve(P_WF, "p_wf", "wall friction, filling", "friction filling"),
    curve(P_WE, "p_we", "wall friction, discharge", "friction"),
    curve(P_P, "p_p", "patch load, discharge", "patch"),
];

/// Numbers below each other stand at least so far apart.
const APART: f64 = 11.0;
/// From this pressure on, Pa, the numbers at its axis are wide.
const WIDE_AXIS: u32 = 100_000;
/// The room that words need.
const WORDS: f64 = 16.0;

/// Of all pressures in the chart, Pa; at least 1.
fn greatest(curves: &Loads) -> u32 {
    let pressures = CURVES.iter().flat_map(|curve| curves.column(curve.load));
    pressures.copied().max().unwrap_or(1).max(1)
}

pub fn draw(svg: &mut Svg, report: &Report, layout: &Layout, curves: &Loads) {
    let greatest = greatest(curves);
    let parts = if greatest < WIDE_AXIS { 4.0 } else { 3.0 };
    let greatest = f64::from(greatest);
    let step = round_step(greatest, parts);
    let scale = (CHART.1 - CHART.0) / (greatest / step).ceil() / step;
    pressure_axis(svg, report, layout, (step, scale));
    depth_axis(svg, layout);
    if report.silo.headroom > 0 {
        surface(svg, report.silo, layout);
    }
    if !layout.is_aligned() {
        own_depths(svg, report.silo, layout);
    }
    let depths = curves.column(Z);
    let point = |(pressure, z): (&u32, &u32)| {
        (CHART.0 + f64::from(*pressure) * scale, layout.chart_y(f64::from(*z)))
    };
    let is_edge = |z: u32| report.silo.edges().any(|(_, edge)| edge == u64::from(z));
    for curve in &CURVES {
        let points: Vec<(f64, f64)> =
            curves.column(curve.load).iter().zip(depths).map(point).collect();
        svg.polyline(curve.class, &points);
        for (point, _) in points.iter().zip(depths).filter(|(_, z)| is_edge(**z)) {
            svg.dot(curve.class, *point);
        }
    }
    legend(svg, layout, curves);
}

fn pressure_axis(svg: &mut Svg, report: &Report, layout: &Layout, (step, scale): (f64, f64)) {
    let (brim, foot) = (layout.brim, layout.chart_y(layout.wall));
    let mut pressure = 0.0;
    while pressure * scale <= CHART.1 - CHART.0 + 0.5 {
        let x = CHART.0 + pressure * scale;
        svg.line("grid", (x, brim - 4.0), (x, foot));
        svg.text("middle", (x, brim - 8.0), &round_pressure(report.units, pressure as u32));
        pressure += step;
    }
    let head = format!("pressure on the wall, {}", report.units.pressure());
    svg.text("middle head", ((CHART.0 + CHART.1) / 2.0, brim - 24.0), &head);
    svg.rectangle("frame", (CHART.0, brim), (CHART.1, foot));
}

/// Every step, and the wall's foot, whose number takes the place of one that is too near.
fn depth_axis(svg: &mut Svg, layout: &Layout) {
    let step = round_step(layout.wall, 10.0);
    let foot = layout.chart_y(layout.wall);
    let steps = (0..).map(|i| step * f64::from(i)).take_while(|depth| *depth < layout.wall);
    for depth in steps.chain([layout.wall]) {
        let y = layout.chart_y(depth);
        svg.line("frame", (CHART.1, y), (CHART.1 + 4.0, y));
        if depth == layout.wall || foot - y >= APART {
            svg.text("start", (CHART.1 + 7.0, y + 3.5), &grouped(depth as u64));
        }
    }
    let middle = layout.chart_y(layout.wall / 2.0);
    svg.upright("middle head", (CHART.1 + 53.0, middle), "depth z below the brim, mm");
}

/// The grain's surface, below which the pressures rise, its words above it where there is room.
fn surface(svg: &mut Svg, silo: &Description, layout: &Layout) {
    let y = layout.chart_y(silo.headroom.into());
    svg.line("surface", (CHART.0, y), (CHART.1, y));
    let words = if y - layout.brim < WORDS { y + 11.0 } else { y - 5.0 };
    svg.over("end", (CHART.1 - 4.0, words), "surface of the grain");
}

/// The strakes' numbers at their edges, and that the chart's depths are not the silo's.
fn own_depths(svg: &mut Svg, silo: &Description, layout: &Layout) {
    let mut before = f64::MIN;
    for (i, (_, edge)) in silo.edges().enumerate() {
        let y = layout.chart_y(edge as f64);
        if y - before >= APART {
            svg.text("end small", (CHART.0 - 5.0, y + 3.5), &(i + 1).to_string());
            before = y;
        }
    }
    let words = "The chart has a depth scale of its own.";
    svg.text("start small", (CHART.0, layout.chart_y(layout.wall) + 16.0), words);
}

/// Of a filling pressure, the one on discharge whose line covers its own.
fn covering(i: usize, curves: &Loads) -> Option<&'static Curve> {
    let curve = &CURVES[i];
    let next = CURVES.get(i + 1).filter(|_| curve.class.ends_with("filling"))?;
    (curves.column(curve.load) == curves.column(next.load)).then_some(next)
}

/// Above the chart.
fn legend(svg: &mut Svg, layout: &Layout, curves: &Loads) {
    for (i, curve) in CURVES.iter().enumerate() {
        let y = layout.brim - 96.0 + 13.5 * i as f64;
        svg.line(curve.class, (CHART.0, y - 4.0), (CHART.0 + 26.0, y - 4.0));
        svg.text("start", (CHART.0 + 32.0, y), curve.name);
        let words = match covering(i, curves) {
            Some(over) => format!("{}: equal to {}", curve.words, over.name),
            None => curve.words.to_string(),
        };
        svg.text("start", (CHART.0 + 62.0, y), &words);
    }
}
