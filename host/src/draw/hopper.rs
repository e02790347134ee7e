//! The hopper's dimensions: run, outlet and angle. Its height stands with the wall's.

use super::layout::Outline;
use super::shown::{degrees, length};
use super::svg::{Svg, OUTSIDE, SHORTEST, SMALL};
use super::wrap::width;
use crate::description::{Description, Section};

/// From the outlet down to the chain of run and outlet.
const CHAIN: f64 = 32.0;
const RADIUS: f64 = 22.0;

pub fn draw(svg: &mut Svg, silo: &Description, outline: &Outline) {
    let Outline { left, foot, outlet, outlet_left, outlet_right, .. } = *outline;
    let y = outlet + CHAIN;
    for (x, upper) in [(left, foot), (outlet_left, outlet), (outlet_right, outlet)] {
        svg.line("extension", (x, upper + 4.0), (x, y + 3.0));
    }
    svg.dimension((left, y), (outlet_left, y));
    svg.dimension((outlet_left, y), (outlet_right, y));
    run(svg, silo, outline, y);
    let side = match silo.section {
        Section::Circle(_) => "",
        Section::Rectangle(..) => " across the shorter side",
    };
    let text = format!("outlet {}{side}", length(silo.outlet_width()));
    svg.text("middle small", (outline.axis, y + 14.0), &text);
    angle(svg, silo, outline);
}

/// Above the chain, or left of it where the run is too short.
fn run(svg: &mut Svg, silo: &Description, outline: &Outline, y: f64) {
    let Outline { left, outlet_left, .. } = *outline;
    let text = format!("r {}", length(silo.hopper_run));
    match width(&text, SMALL) + 4.0 <= outlet_left - left {
        true => svg.text("middle small", ((left + outlet_left) / 2.0, y - 5.0), &text),
        false => svg.text("end small", (left - OUTSIDE - 4.0, y + 3.5), &text),
    }
}

/// The slope's angle from the horizontal, at the outlet's left end.
fn angle(svg: &mut Svg, silo: &Description, outline: &Outline) {
    let Outline { left, foot, outlet, outlet_left, .. } = *outline;
    let corner = (outlet_left, outlet);
    let side = (outlet_left - left).hypot(outlet - foot);
    svg.line("extension", corner, (outlet_left - RADIUS - 4.0, outlet));
    svg.arc("dimension", corner, RADIUS.min(side), silo.slope());
    // clear of the arrows of a low hopper's height
    let end = if outlet - foot < SHORTEST { left - 22.0 } else { outlet_left - 16.0 };
    svg.over("end", (end, outlet + 14.0), &degrees(silo));
}
