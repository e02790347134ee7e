//! The loads of document 01, squat bins as in C-11 of document 02, headroom as in C-13, a blank factor as in C-14 and the force of the
//! patch as in C-16, as exact numbers: lengths in metres, hundredths as plain ratios, nothing rounded. A depth z is the sheet's own; the
//! loads there are those at its load depth.

use crate::exponential::exponential;
use crate::fraction::{fraction, whole, Fraction, Real};
use crate::sheet::Silo;

/// A row of document 01's table of factors: hundredths for Ks and for μ.
#[derive(Clone, Copy)]
pub struct Row(u64, u64);

pub const HORIZONTAL: Row = Row(115, 90);
pub const VERTICAL: Row = Row(90, 90);
pub const FRICTION: Row = Row(115, 115);

/// A length in metres.
fn metres(mm: Fraction) -> Fraction {
    mm.times(&fraction(1, 1_000))
}

/// R = a·b/(2(a+b)), in mm.
fn radius(silo: &Silo) -> Fraction {
    let (a, b) = (silo.a(), silo.b());
    fraction(a * b, 2 * (a + b))
}

/// γR, in Pa.
fn weight_radius(silo: &Silo) -> Fraction {
    metres(radius(silo)).times(&whole(silo.weight))
}

/// Ks and μ with the row's factors.
fn factored(silo: &Silo, row: Row) -> (Fraction, Fraction) {
    (fraction(silo.ratio * row.0, 10_000), fraction(silo.friction * row.1, 10_000))
}

/// z0 = R/(Ks·μ), in mm.
fn z0(silo: &Silo, row: Row) -> Fraction {
    let (ratio, friction) = factored(silo, row);
    radius(silo).over(&ratio.times(&friction))
}

/// q, the load depth of z over z0.
pub fn q(silo: &Silo, row: Row, z: u64) -> Fraction {
    whole(silo.load_depth(z)).over(&z0(silo, row))
}

/// P, the factor before the bracket of p_hf, p_vf and p_wf, in Pa.
pub fn before_bracket(silo: &Silo) -> [Fraction; 3] {
    let (_, friction) = factored(silo, HORIZONTAL);
    let horizontal = weight_radius(silo).over(&friction);
    let (ratio, friction) = factored(silo, VERTICAL);
    let vertical = weight_radius(silo).over(&ratio.times(&friction));
    [horizontal, vertical, weight_radius(silo)]
}

/// Filling at one depth: pressures in Pa, P_w in N/m.
pub struct Filling {
    pub horizontal: Real,
    pub vertical: Real,
    pub friction: Real,
    pub line: Real,
}

/// 1 - e^(-q).
fn bracket(silo: &Silo, row: Row, z: u64) -> Real {
    Real::exactly(whole(1)).minus(&exponential(&q(silo, row, z)))
}

/// p_hf, in Pa.
pub fn horizontal(silo: &Silo, z: u64) -> Real {
    bracket(silo, HORIZONTAL, z).times(&before_bracket(silo)[0])
}

pub fn filling(silo: &Silo, z: u64) -> Filling {
    let [_, vertical, friction] = before_bracket(silo);
    let friction_bracket = bracket(silo, FRICTION, z);
    let depth = Real::exactly(metres(whole(silo.load_depth(z))));
    let length = depth.minus(&friction_bracket.times(&metres(z0(silo, FRICTION))));
    Filling {
        horizontal: horizontal(silo, z),
        vertical: bracket(silo, VERTICAL, z).times(&vertical),
        friction: friction_bracket.times(&friction),
        line: length.times(&weight_radius(silo)),
    }
}

/// A blank C0 in hundredths: (7.4) of source 001, 1.35 + 0.02·(φ - 30°), at an internal friction angle φ of 40°.
const BLANK: u64 = 135 + 2 * (40 - 30);

/// C0, a blank one read as 1.55.
pub fn c0(silo: &Silo) -> Fraction {
    fraction(if silo.factor == 0 { BLANK } else { silo.factor }, 100)
}

/// h/d_c.
pub fn slenderness(silo: &Silo) -> Fraction {
    fraction(silo.height(), silo.d_c())
}

/// C_h and C_w, the factors of p_hf and p_wf in discharge.
#[derive(Debug, PartialEq)]
pub struct Discharge {
    pub c_h: Fraction,
    pub c_w: Fraction,
}

impl Discharge {
    pub fn of(silo: &Silo) -> Discharge {
        Discharge::at(&c0(silo), &slenderness(silo))
    }

    /// Slender from h/d_c = 1.5 on, squat below it.
    pub fn at(c0: &Fraction, slenderness: &Fraction) -> Discharge {
        if slenderness >= &fraction(3, 2) {
            Discharge::slender(c0)
        } else {
            Discharge::squat(c0, slenderness)
        }
    }

    pub fn slender(c0: &Fraction) -> Discharge {
        Discharge { c_h: c0.clone(), c_w: fraction(11, 10) }
    }

    /// (5.34) and (5.35) where h is above d_c, else (5.33): 1 and 1.
    pub fn squat(c0: &Fraction, slenderness: &Fraction) -> Discharge {
        let one = whole(1);
        let above = if slenderness > &one { slenderness.minus(&one) } else { whole(0) };
        let magnified = |factor: Fraction| one.plus(&factor.times(&above));
        Discharge {
            c_h: magnified(whole(2).times(&c0.minus(&one))),
            c_w: magnified(fraction(2, 10)),
        }
    }
}

/// 0.2·β, β = 1 + 4e/d_c.
pub fn patch(silo: &Silo) -> Fraction {
    let e = silo.e_i.max(silo.e_o);
    fraction(4 * e, silo.d_c()).plus(&whole(1)).times(&fraction(2, 10))
}

/// (5.12), in N: π/2·s·d_c·p_p with s = 0.2·d_c and 355/113 for π.
pub fn patch_force(silo: &Silo, p_p: u64) -> Fraction {
    let d_c = metres(whole(silo.d_c()));
    let s = d_c.times(&fraction(2, 10));
    fraction(355, 113).over(&whole(2)).times(&s).times(&d_c).times(&whole(p_p))
}

/// 1.15·μ.
pub fn hopper_friction(silo: &Silo) -> Fraction {
    fraction(115 * silo.friction, 10_000)
}

/// sin²α = H²/(H²+r²) and cos²α, α from the horizontal.
fn slope(silo: &Silo) -> (Fraction, Fraction) {
    let (height, run) = (silo.hopper_height.pow(2), silo.run.pow(2));
    (fraction(height, height + run), fraction(run, height + run))
}

/// 1.2cos²α + sin²α·k/4.
pub fn hopper_share(silo: &Silo, k: u64) -> Fraction {
    let (sine, cosine) = slope(silo);
    cosine.times(&fraction(12, 10)).plus(&sine.times(&fraction(k, 4)))
}

/// 3·R·γ·1.15·Ks·sin²α.
pub fn hopper_filling(silo: &Silo) -> Fraction {
    let ratio = fraction(115 * silo.ratio, 10_000);
    weight_radius(silo).times(&whole(3)).times(&ratio).times(&slope(silo).0)
}

/// 0.9·μ.
pub fn lower_friction(silo: &Silo) -> Fraction {
    fraction(90 * silo.friction, 10_000)
}

/// (5.18) with nothing rounded: the square root of hopper_filling²/(0.9·μ).
pub fn n3(silo: &Silo) -> Real {
    let filling = hopper_filling(silo);
    Real::square_root(&filling.times(&filling).over(&lower_friction(silo)))
}
