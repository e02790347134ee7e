//! The silo to scale: grain, strakes, bottom, dimensions, filling and outlet.

use super::hopper;
use super::layout::{Layout, Outline};
use super::shown::{self, length};
use super::svg::{Point, Svg, OUTSIDE, SHORTEST, SMALL};
use super::wrap::width;
use crate::description::{Description, Section};

/// A part of a strake drawn lower than this, or a silo narrower than this, carries no number.
const LEAST_NUMBERED: f64 = 11.0;
const NARROWEST_NUMBERED: f64 = 36.0;
/// From one height's text to the other's.
const LINE: f64 = 13.0;
/// Length of the arrows of filling and outlet.
const ARROW: f64 = 24.0;

pub fn draw(svg: &mut Svg, silo: &Description, layout: &Layout) {
    let outline = &layout.outline(silo);
    let Outline { left, right, axis, brim, surface, foot, outlet, .. } = *outline;
    let bottom = [
        (left, foot),
        (outline.outlet_left, outlet),
        (outline.outlet_right, outlet),
        (right, foot),
    ];
    svg.polygon("grain", &[&[(left, surface)], &bottom[..], &[(right, surface)]].concat());
    strakes(svg, silo, layout, outline);
    svg.line("axis", (axis, brim - ARROW), (axis, outlet + ARROW));
    let wall = [&[(left, brim)], &bottom[..], &[(right, brim)]].concat();
    match silo.is_flat() {
        true => svg.polyline("wall", &wall),
        false => {
            svg.polyline("wall", &wall[..3]);
            svg.polyline("wall", &wall[3..]);
            hopper::draw(svg, silo, outline);
        }
    }
    across(svg, silo, outline);
    heights(svg, silo, outline);
    filling(svg, silo, layout, outline);
    outflow(svg, silo, layout, outline);
}

/// The lines between strakes.
fn strakes(svg: &mut Svg, silo: &Description, layout: &Layout, outline: &Outline) {
    let last = silo.strakes.len() - 1;
    for (i, (_, edge)) in silo.edges().enumerate() {
        if i == last && !silo.is_flat() || i < last && layout.has_edge(silo, i) {
            let y = layout.silo_y(edge as f64);
            svg.line("edge", (outline.left, y), (outline.right, y));
        }
    }
}

/// The strakes' numbers, clear of the grain's surface and of lines at the heights `cuts`.
pub fn numbers(svg: &mut Svg, silo: &Description, layout: &Layout, cuts: &[f64]) {
    let outline = layout.outline(silo);
    if outline.right - outline.left < NARROWEST_NUMBERED {
        return;
    }
    let cuts = [cuts, &[outline.surface]].concat();
    for (i, (height, edge)) in silo.edges().enumerate() {
        let lower = layout.silo_y(edge as f64);
        let strake = (lower - layout.length(height.into()), lower);
        let (upper, lower) = largest_part(strake, &cuts);
        if lower - upper >= LEAST_NUMBERED {
            let middle = (outline.left + 10.0, (lower + upper) / 2.0 + 3.5);
            svg.text("middle", middle, &(i + 1).to_string());
        }
    }
}

/// Right of a wall with strakes too low for numbers within and no lines to their rows: as many numbers as can stand below each other, the
/// last among them, below the dimension of a headroom and clear of lines at the heights `lines`.
pub fn numbers_beside(svg: &mut Svg, silo: &Description, layout: &Layout, lines: &[f64]) {
    let outline = layout.outline(silo);
    let is_low = |height: &u16| layout.length((*height).into()) < LEAST_NUMBERED;
    let narrow = outline.right - outline.left < NARROWEST_NUMBERED;
    if layout.has_strake_leaders(silo) || !narrow && !silo.strakes.iter().any(is_low) {
        return;
    }
    let highest = if silo.headroom > 0 { outline.surface + OUTSIDE } else { f64::MIN };
    // digits and an arrow's head
    let half = LEAST_NUMBERED / 2.0 + 1.0;
    let is_clear = |y: f64| y - half >= highest && lines.iter().all(|line| (line - y).abs() > half);
    let mut below = f64::MAX;
    let strakes: Vec<(u16, u64)> = silo.edges().collect();
    for (i, (height, edge)) in strakes.into_iter().enumerate().rev() {
        let middle = layout.silo_y(edge as f64 - f64::from(height) / 2.0);
        if below - middle >= LEAST_NUMBERED && is_clear(middle) {
            svg.text("start small", (outline.right + 5.0, middle + 3.5), &(i + 1).to_string());
            below = middle;
        }
    }
}

/// Of a strake the largest part that no height cuts.
fn largest_part((upper, lower): Point, cuts: &[f64]) -> Point {
    let within = cuts.iter().copied().filter(|cut| upper < *cut && *cut < lower);
    let mut ends: Vec<f64> = within.chain([upper, lower]).collect();
    ends.sort_by(f64::total_cmp);
    let parts = ends.windows(2).map(|ends| (ends[0], ends[1]));
    parts.max_by(|a, b| (a.1 - a.0).total_cmp(&(b.1 - b.0))).unwrap_or((upper, lower))
}

/// The diameter or the shorter side.
fn across(svg: &mut Svg, silo: &Description, outline: &Outline) {
    let Outline { left, right, axis, brim, .. } = *outline;
    let y = brim - 38.0;
    svg.dimension((left, y), (right, y));
    for x in [left, right] {
        svg.line("extension", (x, y - 4.0), (x, brim - 3.0));
    }
    let text = match silo.section {
        Section::Circle(d) => format!("d {}", length(d)),
        Section::Rectangle(a, b) => {
            let name = if a <= b { "a" } else { "b" };
            format!("side {name} {}", length(a.min(b)))
        }
    };
    svg.text("middle", (axis, y - 6.0), &text);
}

/// The wall's height and the hopper's.
fn heights(svg: &mut Svg, silo: &Description, outline: &Outline) {
    let Outline { left, brim, foot, outlet, outlet_left, .. } = *outline;
    let x = left - 16.0;
    let mut extension = |y: f64, end: f64| svg.line("extension", (x - 4.0, y), (end - 3.0, y));
    extension(brim, left);
    extension(foot, left);
    let mut wall = (brim + foot) / 2.0;
    if silo.is_flat() {
        svg.dimension((x, brim), (x, foot));
    } else {
        extension(outlet, outlet_left);
        chain(svg, x, [brim, foot, outlet]);
        // above the angle's text, and below the wall's
        let hopper = ((foot + outlet) / 2.0).min(outlet - 3.5);
        wall = wall.min(hopper - LINE);
        height(svg, "H", silo.hopper_height.into(), (x, hopper));
    }
    height(svg, "V", silo.wall_height(), (x, wall));
}

fn height(svg: &mut Svg, name: &str, height: u64, (x, y): Point) {
    svg.text("end", (x - 6.0, y + 3.5), &format!("{name} {}", length(height)));
}

/// Two dimensions one below the other; where both are too short for arrows, a stroke parts them.
fn chain(svg: &mut Svg, x: f64, [upper, middle, lower]: [f64; 3]) {
    if middle - upper >= SHORTEST || lower - middle >= SHORTEST {
        svg.dimension((x, upper), (x, middle));
        return svg.dimension((x, middle), (x, lower));
    }
    svg.arrow((x, upper - OUTSIDE), (x, upper));
    svg.line("dimension", (x, upper), (x, lower));
    svg.line("dimension", (x - 3.0, middle + 3.0), (x + 3.0, middle - 3.0));
    svg.arrow((x, lower + OUTSIDE), (x, lower));
}

/// An eccentricity from the axis to `x`. Its text stands behind it, or before the axis where only that is between `ends`.
fn eccentricity(svg: &mut Svg, text: &str, (axis, x): Point, y: f64, ends: Point) {
    svg.dimension((axis, y), (x, y));
    let (clear, wide) = (Svg::clear_of(x - axis), width(text, SMALL) + 4.0);
    match x + clear + wide > ends.1 && axis - clear - wide >= ends.0 {
        true => svg.over("end", (axis - clear, y + 3.5), text),
        false => svg.over("start", (x + clear, y + 3.5), text),
    }
}

/// Where the grain comes in: an arrow from above the brim that ends on its surface.
fn filling(svg: &mut Svg, silo: &Description, layout: &Layout, outline: &Outline) {
    let x = outline.axis + layout.length(silo.filling_eccentricity);
    if silo.filling_eccentricity > 0 {
        // above the arrows of a low headroom
        let (y, ends) = (outline.brim - 20.0, (outline.left, outline.right));
        let text = format!("e_i {}", length(silo.filling_eccentricity));
        eccentricity(svg, &text, (outline.axis, x), y, ends);
    }
    svg.arrow((x, outline.brim - ARROW), (x, outline.surface));
}

/// The grain's surface and how far it lies below the brim, over the lines from the wall to the table.
pub fn headroom(svg: &mut Svg, silo: &Description, layout: &Layout) {
    if silo.headroom == 0 {
        return;
    }
    let Outline { left, right, brim, surface, .. } = layout.outline(silo);
    svg.line("surface", (left, surface), (right, surface));
    let x = right + 12.0;
    for y in [brim, surface] {
        svg.line("extension", (right + 3.0, y), (x + 4.0, y));
    }
    svg.dimension((x, brim), (x, surface));
    let middle = (x + 6.0, (brim + surface) / 2.0 + 3.5);
    svg.over("start", middle, &shown::headroom(silo));
}

/// Where the grain goes out: an arrow from the floor or the outlet, at the axis where the outlet
/// does not reach the eccentricity.
fn outflow(svg: &mut Svg, silo: &Description, layout: &Layout, outline: &Outline) {
    let Outline { axis, outlet, .. } = *outline;
    let eccentric = axis + layout.length(silo.outlet_eccentricity);
    // below the arrows of a low headroom
    let y = outlet + 14.0;
    if silo.outlet_eccentricity > 0 {
        // a hopper's angle stands before its outlet
        let ends = (outline.outlet_left, outline.right);
        let text = format!("e_o {}", length(silo.outlet_eccentricity));
        eccentricity(svg, &text, (axis, eccentric), y, ends);
    }
    let x = match silo.outlet_is_passed() {
        true => {
            svg.line("frame", (eccentric, y - 7.0), (eccentric, y + 7.0));
            let words = "hopper calculated as symmetric";
            svg.text("middle small", (axis, outlet + 58.0), words);
            axis
        }
        false => eccentric,
    };
    svg.arrow((x, outlet + 1.0), (x, outlet + ARROW));
}
