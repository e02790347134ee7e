//! The strakes as an order needs them: heights, and pressures at the lower edges.

use crate::library::{Loads, P_P};
use crate::report::Report;

/// Height and lower edge, mm; pressures at that edge on discharge, Pa.
pub struct Strake {
    pub height: u16,
    pub edge: u64,
    pub p_he: u32,
    pub p_p: u32,
}

impl Strake {
    /// p_he + p_p, the greatest pressure at any place of the edge.
    pub fn with_patch(&self) -> u32 {
        self.p_he + self.p_p
    }
}

/// Top first, p_he as the list of loads has it.
pub fn strakes(report: &Report, loads: &Loads) -> Vec<Strake> {
    let sizes = report.silo.edges();
    let pressures = loads.strakes().iter().zip(report.edges.column(P_P));
    let strakes = sizes.zip(pressures).map(|((height, edge), (p_he, p_p))| Strake {
        height,
        edge,
        p_he: *p_he,
        p_p: *p_p,
    });
    strakes.collect()
}
