//! The patch of a circle at one depth as JSON.

use super::{description, document, doubts, labels, lines, made, object, string};
use crate::number::tenths;
use crate::patch::Patch;
use crate::report::PROGRAM;

/// Round a shell the pressure every `step` degrees and the force; on squares neither.
pub fn patch(patch: &Patch, step: usize) -> String {
    let report = &patch.report;
    let units = report.units;
    let (from, to) = patch.band();
    let [s, from, to] = [patch.height(), from, to].map(tenths);
    let acts_on = if patch.is_round() { "the shell all round" } else { "two opposite squares" };
    let mut fields = vec![
        ("program", string(PROGRAM)),
        ("file", string(report.file)),
        ("labels", labels(report)),
        ("silo", description(report)),
        ("units", object(&units_of(patch))),
        ("acts_on", string(acts_on)),
        ("depth", patch.depth.to_string()),
    ];
    let below = patch.below_surface();
    fields.extend(below.map(|depth| ("depth_below_grain", depth.to_string())));
    fields.extend([
        ("p_p", units.show(patch.pressure())),
        ("s", s),
        ("band", object(&[("from", from), ("to", to)])),
        ("made_with", made::patch(report.silo)),
    ]);
    if patch.is_round() {
        let degrees = patch.every(step).map(|(degree, pressure)| {
            object(&[("degree", degree.to_string()), ("p_ps", units.signed(pressure))])
        });
        fields.push(("F_p", units.show(patch.shell.force())));
        fields.push(("degrees", lines(degrees)));
    }
    fields.push(("notes", lines(patch.notes().iter().map(|note| string(note)))));
    fields.push(("doubts", doubts(report)));
    document(&fields)
}

/// The unit of each number behind the description.
fn units_of(patch: &Patch) -> Vec<(&'static str, String)> {
    let units = patch.report.units;
    let lengths = ["depth", "depth_below_grain", "s", "from", "to"].map(|name| (name, "mm"));
    let pressures = ["p_p", "p_ps"].map(|name| (name, units.pressure()));
    let all = lengths.into_iter().chain(pressures);
    let all = all.chain([("F_p", units.force()), ("degree", "degrees")]);
    all.map(|(name, unit)| (name, string(unit))).collect()
}
