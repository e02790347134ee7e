//! What an order needs beside pressures: volumes, the mass that the weight makes of them, and total forces. All is exact but for pi,
//! which is taken below for volumes and masses, rounded down, and above for forces, rounded up.

use crate::description::{Description, Section};
use crate::discharge::Discharge;
use crate::fraction::Fraction;
use crate::library::{Loads, P_W};
use crate::number::GRAVITY;
use crate::report::Report;

/// pi lies between the first and the second, 10^-14.
const PI: [u64; 2] = [314_159_265_358_979, 314_159_265_358_980];
/// d_c below which 5.2.2.3 has a simplified rule for the patch, mm
const SIMPLIFIED: u32 = 5000;

/// Litres of a silo to the brim and to the grain's surface, kg to the surface, and N.
#[derive(Clone, Copy, Debug, PartialEq, Eq)]
pub struct Capacity {
    pub to_brim: u128,
    pub to_surface: u128,
    pub mass: u128,
    /// The floor's pressure times its area.
    pub floor: Option<u128>,
    /// P_w at the wall's foot times the perimeter, and C_w times as much.
    pub filling: u128,
    pub discharge: u128,
}

/// A number of an order in thousandths of its unit, with its names for people and for programs.
pub struct Fact {
    pub name: &'static str,
    pub key: &'static str,
    pub thousandths: u128,
    pub unit: &'static str,
}

impl Capacity {
    pub fn of(report: &Report, loads: &Loads) -> Capacity {
        let silo = report.silo;
        let litre = Fraction::new(1_u32, 1_000_000_u32);
        let [to_brim, to_surface] = [silo.wall_height(), silo.grain_height()]
            .map(|height| volume(silo, height).times(litre));
        let kilograms = Fraction::new(silo.product.weight, 10 * GRAVITY);
        let wall = perimeter(silo.section).times(Fraction::new(report.foot(P_W), 1000_u32));
        let floor = || area(silo.section).times(litre).times(Fraction::whole(loads.floor())).up();
        Capacity {
            to_brim: to_brim.down(),
            to_surface: to_surface.down(),
            mass: to_surface.times(kilograms).down(),
            floor: silo.is_flat().then(floor),
            filling: wall.up(),
            discharge: wall.times(Discharge::of(silo).friction).up(),
        }
    }

    pub fn facts(&self) -> Vec<Fact> {
        let fact = |name, key, thousandths, unit| Fact { name, key, thousandths, unit };
        let floor =
            self.floor.map(|force| fact("total on the floor", "floor_total_kn", force, "kN"));
        let before = [
            fact("volume to the brim", "volume_to_brim_m3", self.to_brim, "m3"),
            fact("volume to the grain's surface", "volume_to_surface_m3", self.to_surface, "m3"),
            fact("mass by the weight", "mass_t", self.mass, "t"),
        ];
        let wall = [
            fact("P_w(V) times perimeter", "P_w_total_kn", self.filling, "kN"),
            fact(
                "P_w(V) times perimeter and C_w",
                "P_w_total_on_discharge_kn",
                self.discharge,
                "kN",
            ),
        ];
        before.into_iter().chain(floor).chain(wall).collect()
    }
}

const WEIGHT: &str =
    "The mass is the volume to the grain's surface, level, times the weight over 9.81 m/s2. The weights of table 7.1 are upper limits for \
     loads and not for volumes (note 3 to the table): with such a weight the silo holds less than this mass.";
const ROUNDED: &str = "Volumes and the mass are rounded down, forces up.";
const HOPPER: &str = "Volumes have the hopper in them.";
const FOUR_SIDES: &str =
    "Volumes have the hopper in them, with its height H and run r on all four sides.";
const FRICTIONS: &str =
    "The floor's total has the low friction and 1.2 for uneven pressure, that of P_w the high friction: together they are more than the \
     grain weighs.";
const ALL_ROUND: &str =
    "p_he + p_p is heavy for hoop tension: the patch presses outward on a part of the shell alone.";
const WHOLE_WALL: &str =
    "p_he + p_p is heavy where it is taken for the whole wall: the patch presses on a part of it alone.";
/// By 5.2.2.3, where d_c is under 5 m.
const THIN: &str =
    "d_c is under 5 m: for a thin-walled circle the simplified rules take p_he (1 + 0.1 beta) all round in its place (5.30), which is \
     less and leads to thinner plate; with it goes p_we (1 + 0.2 beta), which is more than p_we (5.32).";
const SQUARES: &str = "d_c is under 5 m: p_he + p_p all round is then the simplified rule's p_he (1 + 0.2 beta) (5.28).";

/// What the numbers of the order rest on, as far as it applies.
pub fn notes(report: &Report) -> Vec<&'static str> {
    let silo = report.silo;
    let (sum, hopper) = match silo.section {
        Section::Circle(_) => (ALL_ROUND, HOPPER),
        Section::Rectangle(..) => (WHOLE_WALL, FOUR_SIDES),
    };
    let simplified = if report.is_thin() { THIN } else { SQUARES };
    let notes = [
        Some(sum),
        (silo.section.shorter_side() < SIMPLIFIED).then_some(simplified),
        Some(WEIGHT),
        (!silo.is_flat()).then_some(hopper),
        silo.is_flat().then_some(FRICTIONS),
        Some(ROUNDED),
    ];
    notes.into_iter().flatten().collect()
}

fn pi(bound: usize) -> Fraction {
    Fraction::new(PI[bound], 10_u64.pow(14))
}

/// From so many mm above the wall's foot down to the outlet, not above the exact value; mm3.
fn volume(silo: &Description, height: u64) -> Fraction {
    let [depth, run] = [silo.hopper_height, silo.hopper_run].map(u128::from);
    let height = u128::from(height);
    match silo.section {
        Section::Circle(d) => {
            let (d, outlet) = (u128::from(d), u128::from(silo.outlet_width()));
            let cone = depth * (d * d + d * outlet + outlet * outlet);
            Fraction::new(3 * d * d * height + cone, 12_u32).times(pi(0))
        }
        Section::Rectangle(a, b) => {
            let [a, b] = [a, b].map(u128::from);
            // the outlet, the section at half the height, the wall's foot
            let across = |part: u128| (a - part * run) * (b - part * run);
            let prismatoid = depth * (across(2) + 4 * across(1) + across(0));
            Fraction::new(6 * a * b * height + prismatoid, 6_u32)
        }
    }
}

/// Not below the exact value, mm2.
fn area(section: Section) -> Fraction {
    match section {
        Section::Circle(d) => Fraction::new(u64::from(d) * u64::from(d), 4_u32).times(pi(1)),
        Section::Rectangle(a, b) => Fraction::whole(u64::from(a) * u64::from(b)),
    }
}

/// Not below the exact value, mm.
fn perimeter(section: Section) -> Fraction {
    match section {
        Section::Circle(d) => Fraction::whole(d).times(pi(1)),
        Section::Rectangle(a, b) => Fraction::whole(2 * (u64::from(a) + u64::from(b))),
    }
}
