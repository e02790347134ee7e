//! The loads made again by hand: from the quantities that the outputs show, and from the loads that each rests on. What the library
//! answers has to be the same.

use crate::basis::{Basis, Filling, Hopper, WALL, WALL_FRICTION};
use crate::description::Description;
use crate::discharge::Discharge;
use crate::fraction::Fraction;
use crate::library::{Loads, P_HE, P_HF, P_P, P_VF, P_W, P_WE, P_WF, ROW, Z};

/// What floating point may be off, Pa and N/m: far more than its error at the greatest loads, and far less than a hand sees.
const MARGIN: f64 = 1e-6;
/// How far above its exact value a filling load lies at most.
const BAND: f64 = 2.0;

/// The quantities of a silo that the library accepts.
pub struct Hand<'a> {
    silo: &'a Description,
    basis: Basis,
    discharge: Discharge,
}

fn up(factor: Fraction, load: u32) -> u128 {
    factor.times(Fraction::whole(load)).up()
}

impl Hand<'_> {
    pub fn of(silo: &Description) -> Hand<'_> {
        Hand { silo, basis: Basis::of(silo), discharge: Discharge::of(silo) }
    }

    /// The first load of a list that is not what the hand makes, and where it stands; `edges` are the loads at the strakes' lower edges,
    /// the last of which is the wall's foot.
    pub fn difference(&self, loads: &Loads, edges: &Loads) -> Option<String> {
        let row = |row: [u32; ROW]| {
            let name = WALL[self.row(&row)?].load;
            Some(format!("{name} at z = {} mm", row[Z]))
        };
        let mut strakes = edges.column(P_HE).iter().zip(loads.strakes());
        let strake = strakes.position(|(p_he, strake)| p_he != strake);
        let foot = edges.column(P_VF).last().copied().unwrap_or(0);
        loads
            .rows()
            .chain(edges.rows())
            .find_map(row)
            .or_else(|| strake.map(|above| format!("p_he of strake {}", above + 1)))
            .or_else(|| self.bottom(loads, foot))
    }

    /// The place among the loads of a depth of the first that differs.
    fn row(&self, row: &[u32]) -> Option<usize> {
        let depth = f64::from(row[Z].saturating_sub(self.silo.headroom));
        let patch = Fraction::new(2_u32, 10_u32).times(self.basis.beta);
        let made = [
            (P_HE, up(self.discharge.horizontal, row[P_HF])),
            (P_WE, up(self.discharge.friction, row[P_WF])),
            (P_P, up(patch, row[P_HE])),
        ];
        let filling = [P_HF, P_WF, P_VF, P_W].into_iter().zip(&self.basis.filling);
        let outside = filling.filter(|(place, filling)| {
            let over = f64::from(row[*place]) - filled(filling, *place, depth);
            !(-MARGIN..BAND + MARGIN).contains(&over)
        });
        let differs = made.into_iter().filter(|(place, load)| u128::from(row[*place]) != *load);
        let places = outside.map(|(place, _)| place).chain(differs.map(|(place, _)| place));
        places.min().map(|place| place - 1)
    }

    /// Floor or hopper from p_vf at the wall's foot.
    pub fn bottom(&self, loads: &Loads, foot: u32) -> Option<String> {
        let Some(hopper) = self.basis.hopper else {
            let floor = up(Fraction::new(12_u32, 10_u32), foot);
            return (u128::from(loads.floor()) != floor).then(|| "the floor's load".to_string());
        };
        let differs = |(k, normal, tangential): (usize, u32, u32)| {
            let made = normal_at(&hopper, k, foot);
            let friction = up(WALL_FRICTION.friction(&self.silo.product), normal);
            let wrong = (u128::from(normal) != made).then_some("P_n");
            let wrong = wrong.or((u128::from(tangential) != friction).then_some("P_t"))?;
            Some(format!("{wrong} at k = {k}"))
        };
        let difference = loads.hopper().find_map(differs);
        difference
    }
}

/// A filling load by its formula, `depth` mm below the grain's surface; Pa, and N/m for P_w.
fn filled(filling: &Filling, place: usize, depth: f64) -> f64 {
    let (limit, z0) = (filling.limit.value(), filling.z0.value());
    let share = -(-depth / z0).exp_m1();
    match place {
        P_W => limit * (depth - z0 * share) / 1000.0,
        _ => limit * share,
    }
}

/// P_n at k quarters of the slope up from the outlet, Pa.
fn normal_at(hopper: &Hopper, k: usize, foot: u32) -> u128 {
    let even = Fraction::new(12_u32, 10_u32).times(hopper.cosine_squared);
    let rising = Fraction::new(k as u64, 4_u32).times(hopper.sine_squared);
    hopper.n3 + up(even.plus(rising), foot)
}
