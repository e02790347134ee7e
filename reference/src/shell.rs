//! The patch round a thin shell of C-16 of document 02: what its call answers to any sheet, given depth and reply list, and the 361 numbers.

use crate::cosine::{BILLION, TABLE};
use crate::formulas::patch_force;
use crate::sheet::{judged, Asked, Silo};

/// Numbers of a reply list: a pressure for each degree, and the force.
pub const LENGTH: usize = DEGREES as usize + 1;

const DEGREES: u64 = 360;

/// The silo, or the number of the refusal: the sheet's own and the given depth's, then 19, then 14.
pub fn judge(sheet: &[u8], depth: u64, list: usize) -> Result<Silo, u64> {
    let silo = judged(sheet, depth, Asked::Loads)?;
    match silo.section.len() {
        2 => Err(19),
        _ if list != LENGTH => Err(14),
        _ => Ok(silo),
    }
}

/// The angle from 0 to 90 whose cosine has the same size.
pub fn folded(degree: u64) -> usize {
    let from_axis = degree % 180;
    from_axis.min(180 - from_axis) as usize
}

/// (5.11): outward from 0 up, inward below 0; the size rounded up.
fn pressure(p_p: u64, degree: u64) -> i64 {
    let size = (p_p * TABLE[folded(degree)]).div_ceil(BILLION) as i64;
    if (91..270).contains(&degree) {
        -size
    } else {
        size
    }
}

/// The reply for the whole-number p_p at the given depth.
pub fn reply(silo: &Silo, p_p: u64) -> Vec<i64> {
    let force = patch_force(silo, p_p).up() as i64;
    (0..DEGREES).map(|degree| pressure(p_p, degree)).chain([force]).collect()
}
