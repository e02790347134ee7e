//! What each load is made with: its equation of ENV, the extremes of Ks and mu (7.1 to 7.3), and the other quantities of its formula,
//! exact, so that a person can make it by hand.

use crate::description::{Description, Product, Section};
use crate::fraction::Fraction;
use crate::number::hundredths;

/// Ks and mu for the greatest load of a kind: the means of the sheet times 0.9 or 1.15 (7.2, 2).
#[derive(Clone, Copy, Debug, PartialEq, Eq)]
pub struct Extremes {
    /// ENV's equation
    pub equation: &'static str,
    /// What Ks is multiplied by, hundredths; none where the load's own formula has no Ks.
    pub ratio_times: Option<u16>,
    /// What mu is multiplied by, hundredths.
    pub friction_times: u16,
}

const LOWER: u16 = 90;
const UPPER: u16 = 115;

/// Greatest horizontal pressure.
pub const HORIZONTAL: Extremes =
    Extremes { equation: "7.1", ratio_times: Some(UPPER), friction_times: LOWER };
/// Greatest vertical pressure.
pub const VERTICAL: Extremes =
    Extremes { equation: "7.2", ratio_times: Some(LOWER), friction_times: LOWER };
/// Greatest wall friction.
pub const WALL_FRICTION: Extremes =
    Extremes { equation: "7.3", ratio_times: Some(UPPER), friction_times: UPPER };

/// The same of a load that is made of another by friction alone.
pub const HIGH_FRICTION: Extremes = Extremes { ratio_times: None, ..WALL_FRICTION };

impl Extremes {
    /// Ks as it acts.
    pub fn ratio(self, product: &Product) -> Option<Fraction> {
        let times = self.ratio_times?;
        Some(Fraction::hundredths(times).times(Fraction::hundredths(product.ratio)))
    }

    /// mu as it acts.
    pub fn friction(self, product: &Product) -> Fraction {
        Fraction::hundredths(self.friction_times).times(Fraction::hundredths(product.friction))
    }

    /// "Ks = 1.15 x 0.55 = 0.6325, mu = 0.9 x 0.30 = 0.27 (7.1)"
    pub fn said(self, product: &Product) -> String {
        let said = |name: &str, times: u16, mean: u16, value: Fraction| {
            let [times, mean] = [Fraction::hundredths(times).shown(), hundredths(mean.into())];
            format!("{name} = {times} x {mean} = {}", value.shown())
        };
        let ratio = self.ratio_times.zip(self.ratio(product));
        let ratio = ratio.map(|(times, value)| said("Ks", times, product.ratio, value) + ", ");
        let friction = said("mu", self.friction_times, product.friction, self.friction(product));
        format!("{}{friction} ({})", ratio.unwrap_or_default(), self.equation)
    }

    /// The friction is the low one, 0.9 mu.
    pub fn is_low(self) -> bool {
        self.friction_times == LOWER
    }
}

/// A load, or the part n3 of P_n, by ENV's name; its equation, its formula over filling loads, and the extremes that it has from there.
#[derive(Clone, Copy, Debug, PartialEq, Eq)]
pub struct Made {
    pub load: &'static str,
    pub equation: &'static str,
    pub formula: &'static str,
    pub with: Extremes,
}

const fn made(
    load: &'static str,
    equation: &'static str,
    formula: &'static str,
    with: Extremes,
) -> Made {
    Made { load, equation, formula, with }
}

/// The loads of a depth, in the order of its row; the last is the patch load.
pub const WALL: [Made; 7] = [
    made("p_hf", "5.3", "P C_z, P = gamma R/mu", HORIZONTAL),
    made("p_wf", "5.2", "P C_z, P = gamma R", WALL_FRICTION),
    made("p_vf", "5.4", "P C_z, P = gamma R/(Ks mu)", VERTICAL),
    made("P_w", "5.7", "P (z - z0 C_z), P = gamma R", WALL_FRICTION),
    made("p_he", "5.21", "C_h p_hf", HORIZONTAL),
    made("p_we", "5.20", "C_w p_wf", WALL_FRICTION),
    PATCH,
];
pub const PATCH: Made = made("p_p", "5.24", "0.2 beta p_he", HORIZONTAL);
const FLOOR: [Made; 1] = [made("floor", "5.13", "1.2 p_vf(V)", VERTICAL)];
/// P_n is made of n3 and of p_vf at V; P_t is P_n times the high friction.
const HOPPER: [Made; 3] = [
    made("n3", "5.18", "3 R gamma Ks sin^2/root(mu)", HORIZONTAL),
    made("P_n", "5.15 to 5.17", "n3 + p_vf(V) (1.2 cos^2 + sin^2 k/4)", VERTICAL),
    made("P_t", "5.19", "P_n mu", HIGH_FRICTION),
];

/// The loads of a silo: those of a depth, then those of its bottom.
pub fn loads(silo: &Description) -> Vec<Made> {
    let bottom: &[Made] = if silo.is_flat() { &FLOOR } else { &HOPPER };
    [&WALL, bottom].concat()
}

/// Digits behind the point of q, with which the greatest P makes a pressure to 0.2 Pa, and of a hopper's sin^2.
pub const Q_DIGITS: usize = 8;

/// The quantities of a filling load.
#[derive(Clone, Copy, Debug, PartialEq, Eq)]
pub struct Filling {
    pub made: Made,
    /// P, which a pressure nears far below the surface, and which stands before the bracket of P_w; Pa.
    pub limit: Fraction,
    /// z0 (5.6), mm
    pub z0: Fraction,
    /// z/z0 at the wall's foot, z counted from the grain's surface.
    pub q_at_foot: Fraction,
}

/// The hopper's quantities.
#[derive(Clone, Copy, Debug, PartialEq, Eq)]
pub struct Hopper {
    /// The square of the slope's sine, alpha from the horizontal.
    pub sine_squared: Fraction,
    pub cosine_squared: Fraction,
    /// B = 3 R gamma 1.15 Ks sin^2, rounded up, Pa
    pub base: u128,
    /// The least n with 0.9 mu n^2 at or above B^2, Pa
    pub n3: u128,
}

/// The quantities of a silo that the library accepts.
#[derive(Clone, Debug, PartialEq, Eq)]
pub struct Basis {
    /// R = A/U, mm
    pub radius: Fraction,
    /// p_hf, p_wf, p_vf and P_w
    pub filling: [Filling; 4],
    /// 5.25, by the larger eccentricity
    pub beta: Fraction,
    pub hopper: Option<Hopper>,
}

impl Basis {
    pub fn of(silo: &Description) -> Basis {
        let radius = radius(silo.section);
        let eccentricity = silo.filling_eccentricity.max(silo.outlet_eccentricity);
        let width = Fraction::whole(silo.section.shorter_side());
        let widths = Fraction::whole(4 * u64::from(eccentricity)).over(width);
        Basis {
            radius,
            filling: [WALL[0], WALL[1], WALL[2], WALL[3]].map(|made| filling(silo, radius, made)),
            beta: Fraction::whole(1_u32).plus(widths),
            hopper: (!silo.is_flat()).then(|| hopper(silo, radius)),
        }
    }
}

/// A/U, mm; a circle is taken as a square of its diameter.
fn radius(section: Section) -> Fraction {
    let (a, b) = match section {
        Section::Circle(d) => (u64::from(d), u64::from(d)),
        Section::Rectangle(a, b) => (a.into(), b.into()),
    };
    Fraction::new(a * b, 2 * (a + b))
}

/// gamma R, Pa
fn weight_times(radius: Fraction, product: &Product) -> Fraction {
    radius.times(Fraction::new(product.weight, 1000_u32))
}

fn filling(silo: &Description, radius: Fraction, made: Made) -> Filling {
    let product = &silo.product;
    let friction = made.with.friction(product);
    let ratio = made.with.ratio(product).unwrap_or(Fraction::whole(1_u32));
    let z0 = radius.over(ratio.times(friction));
    let whole = weight_times(radius, product);
    let limit = match made.with {
        HORIZONTAL => whole.over(friction),
        VERTICAL => whole.over(ratio.times(friction)),
        _ => whole,
    };
    Filling { made, limit, z0, q_at_foot: Fraction::whole(silo.grain_height()).over(z0) }
}

fn hopper(silo: &Description, radius: Fraction) -> Hopper {
    let [height, run] = [silo.hopper_height, silo.hopper_run].map(|n| u64::from(n) * u64::from(n));
    let sine_squared = Fraction::new(height, height + run);
    let ratio = HORIZONTAL.ratio(&silo.product).unwrap_or(Fraction::whole(1_u32));
    let whole = weight_times(radius, &silo.product).times(Fraction::whole(3_u32));
    let base = whole.times(ratio).times(sine_squared).up();
    let squared = Fraction::whole(base * base).over(HORIZONTAL.friction(&silo.product));
    Hopper {
        sine_squared,
        cosine_squared: Fraction::new(run, height + run),
        base,
        n3: root_up(squared.up()),
    }
}

/// The least whole number whose square is not below.
fn root_up(number: u128) -> u128 {
    let root = number.isqrt();
    root + u128::from(root * root < number)
}

#[cfg(test)]
mod tests {
    use super::*;

    /// Wheat on steel in a circle of 5 m, e 500 mm, over a wall of 16 m; a flat floor or a hopper of 3:4.
    fn silo(hopper_height: u32, hopper_run: u32) -> Description {
        Description {
            section: Section::Circle(5000),
            product: Product { weight: 9000, ratio: 55, friction: 30, factor: 130 },
            filling_eccentricity: 0,
            outlet_eccentricity: 500,
            hopper_height,
            hopper_run,
            strakes: vec![2000; 8],
            depths: vec![0],
            headroom: 0,
        }
    }

    #[test]
    fn each_load_has_its_own_ratio_and_friction() {
        let product = silo(0, 0).product;
        let said = |made: &Made| {
            let ratio = made.with.ratio(&product).map(Fraction::shown).unwrap_or_default();
            [made.load, made.equation, made.with.equation]
                .map(str::to_string)
                .into_iter()
                .chain([ratio, made.with.friction(&product).shown()])
                .collect::<Vec<String>>()
                .join(" ")
        };
        let all = |silo: Description| loads(&silo).iter().map(said).collect::<Vec<String>>();
        let wall = [
            "p_hf 5.3 7.1 0.6325 0.27",
            "p_wf 5.2 7.3 0.6325 0.345",
            "p_vf 5.4 7.2 0.495 0.27",
            "P_w 5.7 7.3 0.6325 0.345",
            "p_he 5.21 7.1 0.6325 0.27",
            "p_we 5.20 7.3 0.6325 0.345",
            "p_p 5.24 7.1 0.6325 0.27",
        ];
        let flat = all(silo(0, 0));
        assert_eq!(flat[..7], wall);
        assert_eq!(flat[7..], ["floor 5.13 7.2 0.495 0.27"]);
        let hopper = all(silo(1500, 2000));
        assert_eq!(hopper[..7], wall);
        assert_eq!(
            hopper[7..],
            ["n3 5.18 7.1 0.6325 0.27", "P_n 5.15 to 5.17 7.2 0.495 0.27", "P_t 5.19 7.3  0.345"]
        );
    }

    #[test]
    fn extremes_are_said_with_their_factors() {
        let product = silo(0, 0).product;
        assert_eq!(
            HORIZONTAL.said(&product),
            "Ks = 1.15 x 0.55 = 0.6325, mu = 0.9 x 0.30 = 0.27 (7.1)"
        );
        assert_eq!(HOPPER[2].with.said(&product), "mu = 1.15 x 0.30 = 0.345 (7.3)");
    }

    #[test]
    fn quantities_by_hand() {
        let basis = Basis::of(&silo(1500, 2000));
        assert_eq!((basis.radius.shown(), basis.beta.shown()), ("1250".into(), "1.4".into()));
        let [p_hf, p_wf, p_vf, p_w] = basis.filling;
        assert_eq!(
            [p_hf, p_wf, p_vf, p_w].map(|load| (load.limit.about(2), load.z0.about(2))),
            [
                ("about 41666.67".into(), "about 7319.57".into()),
                ("11250".into(), "about 5728.36".into()),
                ("about 84175.08".into(), "about 9352.79".into()),
                ("11250".into(), "about 5728.36".into()),
            ]
        );
        // 16000·0.6325·0.27/1250
        assert_eq!(p_hf.q_at_foot.shown(), "2.18592");
        let hopper = basis.hopper.expect("a hopper");
        assert_eq!(
            (hopper.sine_squared.shown(), hopper.cosine_squared.shown()),
            ("0.36".into(), "0.64".into())
        );
        // 3·1.25·9000·0.6325·0.36 = 7684.875; 7685/root(0.27) = 14789.8
        assert_eq!((hopper.base, hopper.n3), (7685, 14_790));
        assert_eq!(Basis::of(&silo(0, 0)).hopper, None);
    }

    #[test]
    fn the_root_is_the_least_that_reaches() {
        assert_eq!([0, 1, 2, 4, 5, 9, 10].map(root_up), [0, 1, 2, 2, 3, 3, 4]);
    }
}
