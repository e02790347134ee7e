//! The patch on two opposite squares (5.2.1.1, 4): at both sides of the silo, and in plan with the pressure outward.

use super::layout::Outline;
use super::shell::{Plan, SHORTEST_ARROW};
use super::shown::{grouped_number, pressure};
use super::svg::{Point, Svg};
use crate::number::tenths;
use crate::patch::Patch;
use std::f64::consts::PI;

/// Half the angle that a side s = 0.2 d_c takes of the wall, radians: s/2 over d_c/2.
const HALF: f64 = 0.2;
/// Points of a square's curve in plan, less one.
const STEPS: usize = 8;
/// How thick a square is drawn from the side, and how far its arrow reaches.
const THICK: f64 = 4.0;
const ARROW: f64 = 11.0;
/// From a square's side in plan in to its dimension.
const INSIDE: f64 = 14.0;

/// Each as a strip along its wall between two heights, with an arrow outward where it presses.
pub fn from_the_side(svg: &mut Svg, patch: &Patch, outline: &Outline, (upper, lower): Point) {
    let thick = THICK.min((outline.right - outline.left) / 2.0);
    let middle = (upper + lower) / 2.0;
    for (wall, outward) in [(outline.left, -1.0), (outline.right, 1.0)] {
        let inside = wall - outward * thick;
        svg.rectangle("band", (inside.min(wall), upper), (inside.max(wall), lower));
        if patch.pressure() > 0 {
            svg.arrow((wall, middle), (wall + outward * ARROW, middle));
        }
    }
}

/// From above, at the right and at the left.
pub fn plan(svg: &mut Svg, patch: &Patch, plan: &Plan, top: f64) {
    let units = patch.report.units;
    let head = format!("p_p outward on two opposite squares from above, {}", units.pressure());
    svg.text("middle head", (plan.centre.0, top), &head);
    svg.circle("grain", plan.centre, plan.radius);
    let tip = plan.radius + f64::from(patch.pressure()) * plan.scale;
    for (side, anchor) in [(0.0, "start"), (PI, "end")] {
        square(svg, plan, side, tip);
        let (x, y) = plan.at(side, plan.beside());
        svg.text(&format!("{anchor} head"), (x, y - 5.0), "p_p");
        svg.text(anchor, (x, y + 10.0), &pressure(units, patch.pressure()));
    }
    svg.circle("shell", plan.centre, plan.radius);
    side(svg, patch, plan);
}

/// The area between the wall and the pressure, and arrows outward.
fn square(svg: &mut Svg, plan: &Plan, side: f64, tip: f64) {
    let angle = |i: usize| side - HALF + 2.0 * HALF * i as f64 / STEPS as f64;
    let wall = (0..=STEPS).map(|i| plan.at(angle(i), plan.radius));
    let curve = (0..=STEPS).rev().map(|i| plan.at(angle(i), tip));
    svg.polygon("pressure", &wall.chain(curve).collect::<Vec<Point>>());
    if tip - plan.radius >= SHORTEST_ARROW {
        for i in [0, STEPS / 2, STEPS] {
            svg.arrow(plan.at(angle(i), plan.radius), plan.at(angle(i), tip));
        }
    }
}

/// The length s along the wall, within the right square.
fn side(svg: &mut Svg, patch: &Patch, plan: &Plan) {
    let [upper, lower] = [HALF, -HALF].map(|angle| plan.at(angle, plan.radius));
    let x = upper.0 - INSIDE;
    for y in [upper.1, lower.1] {
        svg.line("extension", (x - 4.0, y), (upper.0 - 3.0, y));
    }
    svg.dimension((x, upper.1), (x, lower.1));
    let words = format!("s {}\u{a0}mm", grouped_number(&tenths(patch.height())));
    svg.text("end small", (x - 6.0, plan.centre.1 + 3.5), &words);
}
