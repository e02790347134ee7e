//! The patch round a shell: its band on the silo, and the shell in plan with the pressure round it. Squares in their place are in `squares`.

use super::layout::{Layout, RIGHT, TOP};
use super::shown::{grouped_number, length, pressure, signed};
use super::svg::{Point, Svg, NOTE};
use super::wrap;
use crate::basis::{Basis, PATCH};
use crate::description::Description;
use crate::library::DEGREES;
use crate::number::tenths;
use crate::patch::Patch;

/// What the page has beyond other drawings.
pub const STYLE: &str = "\
circle.grain { fill: #f3e3bd }
.ring { fill: none; stroke: #bbb; stroke-width: 0.6; stroke-dasharray: 3 3 }
.pressure, .band { fill: #b5d6a6; fill-opacity: 0.6; stroke: #3f7d2e; stroke-width: 1.5 }
.band { fill-opacity: 0.3 }
.shell { fill: none; stroke: #222; stroke-width: 2.5 }
";

/// The silo stands between these.
pub const SILO: Point = (134.0, 350.0);
/// Where the patch is described, right of the title.
pub const FACTS: f64 = 766.0;
/// The dimension of the depth, right of the silo; lines of text beside it.
const DEPTH: f64 = 370.0;
const LINE: f64 = 13.0;
/// The plan stands between this and the right margin.
const PLAN: f64 = 460.0;
/// How far the greatest pressure reaches from the shell, in parts of its radius.
const REACH: f64 = 0.4;
/// Pa; a patch of less does not reach so far, since its whole Pa would be drawn as steps.
const LEAST_REACHING: u32 = 50;
/// From the greatest pressure to the words beside it, and the room that these take.
const GAP: f64 = 6.0;
const WORDS: Point = (66.0, 26.0);
/// Degrees from one pressure that is written to the next, and from one that is drawn to the next.
const WRITTEN: usize = 30;
const DRAWN: usize = 10;
/// An arrow shorter than this is left out.
pub const SHORTEST_ARROW: f64 = 9.0;

/// Describes the patch at the top right; the last line's height.
pub fn facts(svg: &mut Svg, patch: &Patch) -> f64 {
    let mut y = TOP;
    for fact in patch.facts(grouped_number).into_iter().chain([made_with(patch.report.silo)]) {
        let fact = fact.replace(" mm", "\u{a0}mm");
        for line in wrap::lines(&fact, NOTE, |_| RIGHT - FACTS) {
            y += 14.5;
            svg.text("start note", (FACTS, y), &line);
        }
    }
    y
}

fn made_with(silo: &Description) -> String {
    let (said, beta) = (PATCH.with.said(&silo.product), Basis::of(silo).beta.shown());
    // broken behind commas
    let parts = format!("p_p with {said}, beta = {beta} (5.25)").replace(' ', "\u{a0}");
    parts.replace(",\u{a0}", ", ")
}

/// The patch's band or squares, and how deep they lie; the heights of their edges.
pub fn band(svg: &mut Svg, patch: &Patch, layout: &Layout) -> [f64; 2] {
    let outline = layout.outline(patch.report.silo);
    let (from, to) = patch.band();
    let [upper, lower] = [from, to].map(|edge| layout.silo_y(edge as f64 / 10.0));
    match patch.is_round() {
        true => svg.rectangle("band", (outline.left, upper), (outline.right, lower)),
        false => super::squares::from_the_side(svg, patch, &outline, (upper, lower)),
    }
    let (brim, middle) = (outline.brim, layout.silo_y(patch.depth.into()));
    for y in [brim, middle] {
        svg.line("extension", (outline.right + 3.0, y), (DEPTH + 4.0, y));
    }
    if patch.depth > 0 {
        svg.dimension((DEPTH, brim), (DEPTH, middle));
    }
    let height = grouped_number(&tenths(patch.height()));
    let name = if patch.is_round() { "band" } else { "squares" };
    let words = [format!("z {}", length(patch.depth)), format!("{name} s {height}\u{a0}mm")];
    for (i, words) in words.iter().enumerate() {
        let y = middle + 3.5 + LINE * i as f64;
        svg.text("start small", (DEPTH + 8.0, y), words);
    }
    [upper, lower]
}

/// The shell as seen from above, 0 degrees at the right.
pub struct Plan {
    pub centre: Point,
    pub radius: f64,
    /// Pixels for each Pa.
    pub scale: f64,
}

impl Plan {
    fn of(patch: &Patch, top: f64, lowest: f64) -> Plan {
        let room = [(RIGHT - PLAN) / 2.0 - WORDS.0, (lowest - top) / 2.0 - WORDS.1];
        let radius = (room[0].min(room[1]) - GAP) / (1.0 + REACH);
        let greatest = f64::from(patch.shell.pressure().max(LEAST_REACHING));
        let centre = ((PLAN + RIGHT) / 2.0, (top + lowest) / 2.0);
        Plan { centre, radius, scale: REACH * radius / greatest }
    }

    /// Beside the greatest pressure that could stand there.
    pub fn beside(&self) -> f64 {
        self.radius * (1.0 + REACH) + GAP
    }

    /// At an angle in radians.
    pub fn at(&self, angle: f64, radius: f64) -> Point {
        (self.centre.0 + radius * angle.cos(), self.centre.1 - radius * angle.sin())
    }

    fn point(&self, degree: usize, radius: f64) -> Point {
        self.at((degree as f64).to_radians(), radius)
    }

    /// On the shell.
    fn foot(&self, degree: usize) -> Point {
        self.point(degree, self.radius)
    }

    /// As far from the shell as the pressure is great, outside where it acts outward.
    fn tip(&self, degree: usize, pressure: i32) -> Point {
        self.point(degree, self.radius + f64::from(pressure) * self.scale)
    }
}

/// Between `top` and `lowest`.
pub fn plan(svg: &mut Svg, patch: &Patch, top: f64, lowest: f64) {
    if !patch.is_round() {
        return super::squares::plan(svg, patch, &Plan::of(patch, top + LINE, lowest), top);
    }
    let units = patch.report.units;
    let plan = Plan::of(patch, top + LINE, lowest);
    let mut head = format!("p_ps round the shell from above, {}", units.pressure());
    if patch.shell.pressure() < LEAST_REACHING {
        let reaching = pressure(units, LEAST_REACHING);
        head += &format!("; the outer ring is at {reaching} {}", units.pressure());
    }
    svg.text("middle head", (plan.centre.0, top), &head);
    svg.circle("grain", plan.centre, plan.radius);
    let reaches = [-REACH, REACH].map(|reach| plan.radius * (1.0 + reach));
    for radius in reaches {
        svg.circle("ring", plan.centre, radius);
    }
    pressures(svg, patch, &plan);
    svg.circle("shell", plan.centre, plan.radius);
    for (degree, pressure) in patch.every(WRITTEN) {
        let [from, to] = reaches.map(|radius| plan.point(degree, radius));
        svg.line("ring", from, to);
        words(svg, &plan, degree, &signed(units, pressure));
    }
    if patch.shell.force() > 0 {
        force(svg, &plan);
    }
}

/// The area between the shell and the pressure, outward and inward, with arrows from the shell.
fn pressures(svg: &mut Svg, patch: &Patch, plan: &Plan) {
    let all = patch.shell.pressures();
    for first in [3 * DEGREES / 4, DEGREES / 4] {
        let half = (first..=first + DEGREES / 2).map(|degree| degree % DEGREES);
        let curve = half.clone().map(|degree| plan.tip(degree, all[degree]));
        let shell = half.rev().map(|degree| plan.foot(degree));
        svg.polygon("pressure", &curve.chain(shell).collect::<Vec<Point>>());
    }
    for (degree, pressure) in patch.every(DRAWN) {
        if f64::from(pressure).abs() * plan.scale >= SHORTEST_ARROW {
            svg.arrow(plan.foot(degree), plan.tip(degree, pressure));
        }
    }
}

/// A degree with its pressure, beside the greatest that could stand there.
fn words(svg: &mut Svg, plan: &Plan, degree: usize, pressure: &str) {
    let (x, y) = plan.point(degree, plan.beside());
    let (sine, cosine) = (degree as f64).to_radians().sin_cos();
    let anchor = match cosine {
        c if c > 0.25 => "start",
        c if c < -0.25 => "end",
        _ => "middle",
    };
    let y = y - WORDS.1 / 2.0 * sine;
    svg.text(&format!("{anchor} head"), (x, y - 2.0), &format!("{degree}°"));
    svg.text(anchor, (x, y + 10.0), pressure);
}

/// An arrow towards 0 degrees.
fn force(svg: &mut Svg, plan: &Plan) {
    let (x, y) = plan.centre;
    svg.dot("point", plan.centre);
    svg.arrow(plan.centre, (x + plan.radius / 2.0, y));
    svg.text("middle", (x + plan.radius / 4.0, y - 6.0), "F_p");
}
