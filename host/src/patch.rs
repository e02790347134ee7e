//! The patch of a circle at one depth: round a thin shell (5.11, 5.12), or on two opposite squares of a wall that is concrete or stiffened
//! (5.2.1.1, 4). What every output says of it.

use crate::library::ShellPatch;
use crate::number::tenths;
use crate::report::Report;

pub struct Patch<'a> {
    pub report: Report<'a>,
    /// z, mm below the brim
    pub depth: u32,
    pub shell: ShellPatch,
}

/// How the lines that describe a patch start, in a table: round a shell, and on squares.
pub const HEADINGS: [&str; 2] = ["Patch round the shell, ", "Patch on two opposite squares, "];
/// Which pressure stands at a degree.
pub const LAW: &str = "p_ps = p_p cos theta (5.11), outward positive, inward negative";

/// Notes on the patch round a shell.
const ROUND: [&str; 2] = [
    "The patch goes round thin-walled circles, d_c/t over 200 and no ring stiffeners (1.4.15.3). With wall = concrete or stiffeners = yes in \
     the text it acts on two opposite squares with sides of s (5.2.1.1, 4).",
    "The patch is added to p_he. It may act at any depth and towards any side: 0 degrees is the side where it presses outward most (5.2.1.1, \
     3 and 6).",
];
/// Notes on the patch on squares, the first behind what the wall is.
const ON_SQUARES: [&str; 2] = [
    "so the patch presses outward on two opposite squares with sides of s (5.2.1.1, 4). The cosine round the shell (5.11) and the force F_p \
     (5.12) are for thin-walled circles of metal without stiffeners.",
    "The patch is added to p_he. The squares may lie at any depth and on any two opposite sides (5.2.1.1, 3).",
];

impl Patch<'_> {
    /// It goes round the shell; else it acts on two opposite squares.
    pub fn is_round(&self) -> bool {
        self.report.is_thin()
    }

    /// p_p, Pa
    pub fn pressure(&self) -> u32 {
        self.shell.pressure()
    }

    /// Degrees from 0 on, so far apart, each with its pressure, Pa.
    pub fn every(&self, step: usize) -> impl Iterator<Item = (usize, i32)> + '_ {
        self.shell.pressures().iter().copied().enumerate().step_by(step)
    }

    /// z - g, where there is headroom; mm, 0 above the grain.
    pub fn below_surface(&self) -> Option<u32> {
        let headroom = Some(self.report.silo.headroom).filter(|headroom| *headroom > 0);
        headroom.map(|headroom| self.depth.saturating_sub(headroom))
    }

    /// s, tenths of a mm
    pub fn height(&self) -> u64 {
        self.report.silo.section.patch_side()
    }

    /// The band's edges, the depth being at its middle, as far as the wall goes; tenths of a mm below the brim.
    pub fn band(&self) -> (u64, u64) {
        let (from, to) = self.whole_band();
        (from.max(0) as u64, (to as u64).min(10 * self.report.silo.wall_height()))
    }

    fn whole_band(&self) -> (i64, i64) {
        let (middle, half) = (10 * i64::from(self.depth), self.height() as i64 / 2);
        (middle - half, middle + half)
    }

    /// Where it acts, its greatest pressure, its height and its force, a line each; `written` is how a number looks.
    pub fn facts(&self, written: impl Fn(&str) -> String) -> Vec<String> {
        let units = self.report.units;
        let length = |number: u32| format!("{} mm", written(&number.to_string()));
        let surface = match self.below_surface() {
            None => String::new(),
            Some(0) => format!("; the grain begins at {}", length(self.report.silo.headroom)),
            Some(depth) => format!(", {} below the grain's surface", length(depth)),
        };
        let [heading, at, side] = match self.is_round() {
            true => [HEADINGS[0], "at 0 degrees", "its height"],
            false => [HEADINGS[1], "outward on each", "their sides"],
        };
        let (from, to) = self.band();
        let [s, from, to] = [self.height(), from, to].map(|number| written(&tenths(number)));
        let p_p = format!("{} {}", written(&units.show(self.pressure())), units.pressure());
        let force = self.is_round().then(|| {
            let force = written(&units.show(self.shell.force()));
            format!("F_p {force} {}, its force, towards 0 degrees (5.12)", units.force())
        });
        let facts = [
            format!("{heading}{} below the brim{surface}", length(self.depth)),
            format!("p_p {p_p} {at}, on discharge (5.24)"),
            format!("s {s} mm, {side}, from {from} to {to} mm (5.10)"),
        ];
        facts.into_iter().chain(force).collect()
    }

    /// What the patch leaves out, as far as it applies to this silo and depth.
    pub fn notes(&self) -> Vec<String> {
        let mut notes = self.report.notes_of_silo();
        notes.extend(match self.is_round() {
            true => ROUND.map(str::to_string),
            false => {
                let [squares, places] = ON_SQUARES;
                [format!("The wall {}, {squares}", self.report.stiffness()), places.to_string()]
            }
        });
        notes.extend(self.cut_off());
        notes.extend(self.report.unreduced());
        notes
    }

    /// A band or squares that would go beyond the wall.
    fn cut_off(&self) -> Option<String> {
        let (from, to) = self.whole_band();
        let ends = [
            (from < 0, "at the brim"),
            (to > 10 * self.report.silo.wall_height() as i64, "at the wall's foot"),
        ];
        let cut: Vec<&str> = ends.iter().filter(|(cut, _)| *cut).map(|(_, end)| *end).collect();
        let ends = cut.join(" and ");
        (!cut.is_empty()).then(|| match self.is_round() {
            true => format!("The band ends {ends}; F_p is for its whole height s."),
            false => format!("The squares end {ends}."),
        })
    }
}
