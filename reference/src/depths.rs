//! The depths for pressures of C-19 of document 02: what its two calls answer to any sheet, pressures and reply list, and which depth is a
//! reply.

use crate::formulas::{horizontal, Discharge};
use crate::fraction::whole;
use crate::sheet::{parse, Silo};

/// Pressures of the longest list.
pub const MOST: usize = 32;

/// The silo, or the number of the refusal: the sheet's own; then 21 for pressures that are none, too many or falling; then 22.
pub fn judge(sheet: &[u8], pressures: &[u32], list: usize) -> Result<Silo, u64> {
    let silo = parse(sheet)?;
    let fit = (1..=MOST).contains(&pressures.len()) && pressures.is_sorted();
    match () {
        () if !fit => Err(21),
        () if list != pressures.len() => Err(22),
        () => Ok(silo),
    }
}

/// The least and the greatest p_he that document 01 allows at a depth: it leaves p_hf free from its exact value up to less than 2 above,
/// which are two whole numbers, and makes p_he from it.
pub fn bounds(silo: &Silo, z: u64) -> (u64, u64) {
    if silo.load_depth(z) == 0 {
        return (0, 0);
    }
    let (p_hf, c_h) = (horizontal(silo, z).up(), Discharge::of(silo).c_h);
    let p_he = |p_hf| whole(p_hf).times(&c_h).up();
    (p_he(p_hf), p_he(p_hf + 1))
}

/// Whether a depth may be the greatest whole millimetre from 0 to V at which p_he is not above a pressure, by bounds of p_he at each depth.
/// These never fall: so it lies between the greatest depths at which the one and the other bound is not above.
pub fn is_reply(silo: &Silo, depth: u64, pressure: u32, p_he: impl Fn(u64) -> (u64, u64)) -> bool {
    let (foot, pressure) = (silo.foot(), pressure.into());
    depth <= foot && p_he(depth).0 <= pressure && (depth == foot || p_he(depth + 1).1 > pressure)
}
