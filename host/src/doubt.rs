//! Silos that are calculated but improbable: one table of doubts, each with its limit and its reason. A doubt is said and refuses nothing.

mod measured;

use crate::catalogue::{Origin, Wall};
use crate::description::{Description, Section};
use crate::fraction::Fraction;
use crate::name::Name;
use crate::number::{hundredths, LIGHTEST};
use measured::{self as of, Case};

/// What is improbable in a silo.
#[derive(Clone, Debug, PartialEq, Eq)]
pub struct Doubt {
    /// A word that stays the same whatever is said.
    pub code: &'static str,
    /// The line of the text that it comes from.
    pub name: Name,
    pub words: String,
}

impl Doubt {
    /// As it stands on standard error and among the notes.
    pub fn shown(&self) -> String {
        format!("Doubt: {}", self.words)
    }
}

/// A fraction; a number has 1 below.
type Ratio = (u64, u64);

/// What is beyond it is doubtful, what is equal to it is not.
#[derive(Clone, Copy)]
enum Limit {
    Over(u64, u64),
    Under(u64, u64),
}
use Limit::{Over, Under};

impl Limit {
    /// As reasons have it: a whole number, a decimal, or a fraction that is none.
    fn shown(self) -> String {
        let (Over(top, bottom) | Under(top, bottom)) = self;
        let limit = Fraction::new(top, bottom);
        match bottom {
            1 => top.to_string(),
            100 => hundredths(top),
            _ if limit.ends_within(1) => limit.to(1),
            _ => format!("{top}/{bottom}"),
        }
    }

    fn is_passed(self, (top, bottom): Ratio) -> bool {
        let times = |a: u64, b: u64| u128::from(a) * u128::from(b);
        match self {
            Over(most, part) => times(top, part) > times(most, bottom),
            Under(least, part) => times(top, part) < times(least, bottom),
        }
    }
}

struct Row {
    code: &'static str,
    name: Name,
    /// None where the silo has no such thing.
    measured: fn(&Case) -> Option<Ratio>,
    limit: Limit,
    /// What the silo has, in words.
    seen: fn(&Case) -> String,
    /// What the limit is, with {} in its place, and why it is one.
    reasons: &'static [&'static str],
}

const fn row(
    (code, name): (&'static str, Name),
    measured: fn(&Case) -> Option<Ratio>,
    limit: Limit,
    seen: fn(&Case) -> String,
    reasons: &'static [&'static str],
) -> Row {
    Row { code, name, measured, limit, seen, reasons }
}

impl Row {
    /// The reasons, of which the last may be a question.
    fn sentence(&self) -> String {
        let sentence = self.reasons.join("; ").replace("{}", &self.limit.shown());
        let point = if sentence.ends_with('?') { "" } else { "." };
        sentence + point
    }
}

const LOWER_WEIGHT: &str = "a lower weight lowers every load";
const LOWER_RATIO: &str = "a lower ratio lowers horizontal pressure and wall friction";
const HIGHER_RATIO: &str = "a higher ratio lowers vertical pressure and the load on a floor";
const LOWER_FRICTION: &str = "a lower friction lowers what the wall carries down, p_wf and P_w";
const HIGHER_FRICTION: &str = "a higher friction lowers horizontal pressure, floor and hopper";
const LOWER_FACTOR: &str = "a lower factor lowers p_he and p_p on discharge";
const NARROWER: &str = "the narrower the silo, the lower its filling loads";
const LOWER_WALL: &str = "the lower the wall, the lower its loads";
const SLIP: &str = "is it a slip of ten?";
const UNIT: &str = "were cm or m meant?";

/// Lengths in mm, weights in N/m³. Numbers of a product that the text names are measured by its row of table 7.1.
const DOUBTS: [Row; 33] = [
    row(
        ("headroom-high", Name::Headroom),
        of::headroom,
        Over(1, 3),
        of::headroom_seen,
        &[
            "over {} of the wall, and it lowers every load",
            "if the grain's height was meant, the headroom is the rest",
        ],
    ),
    row(
        ("strake-without-load", Name::Headroom),
        of::strakes_above_grain,
        Over(0, 1),
        of::strakes_above_grain_seen,
        &["it ends above the grain", "filled higher, it is loaded and needs its plate"],
    ),
    row(
        ("weight-light", Name::Weight),
        |case| case.by_table(Name::Weight),
        Under(1, 1),
        |case| case.own(Name::Weight),
        &["its weights are upper limits (7.2, 1)", LOWER_WEIGHT],
    ),
    row(
        ("ratio-light-on-wall", Name::Ratio),
        |case| case.by_table(Name::Ratio),
        Under(1, 1),
        |case| case.own(Name::Ratio),
        &[LOWER_RATIO],
    ),
    row(
        ("ratio-light-on-bottom", Name::Ratio),
        |case| case.by_table(Name::Ratio),
        Over(1, 1),
        |case| case.own(Name::Ratio),
        &[HIGHER_RATIO],
    ),
    row(
        ("friction-light-on-wall", Name::Friction),
        of::friction_on_smooth_wall,
        Over(1, 1),
        |case| case.own(Name::Friction),
        &[HIGHER_FRICTION],
    ),
    row(
        ("friction-light-drag", Name::Friction),
        of::friction_on_smooth_wall,
        Under(1, 1),
        |case| case.own(Name::Friction),
        &[LOWER_FRICTION],
    ),
    row(
        ("friction-light-on-unnamed-wall", Name::Friction),
        |case| of::friction_by(case, Wall::Concrete),
        Over(1, 1),
        |case| of::friction_by_seen(case, Wall::Concrete, "at most"),
        &["no wall is named", HIGHER_FRICTION],
    ),
    row(
        ("friction-light-drag-on-unnamed-wall", Name::Friction),
        |case| of::friction_by(case, Wall::Steel),
        Under(1, 1),
        |case| of::friction_by_seen(case, Wall::Steel, "at least"),
        &["no wall is named", LOWER_FRICTION],
    ),
    row(
        ("friction-corrugated", Name::Friction),
        of::friction_on_corrugated_wall,
        Under(101, 100),
        |case| case.own(Name::Friction),
        &["a corrugated wall has more than smooth steel", LOWER_FRICTION],
    ),
    row(
        ("factor-light", Name::Factor),
        |case| case.by_table(Name::Factor),
        Under(1, 1),
        |case| case.own(Name::Factor),
        &[LOWER_FACTOR],
    ),
    row(
        ("weight-low", Name::Weight),
        |case| case.without_product(Name::Weight),
        Under(LIGHTEST, 1),
        |case| case.line(Name::Weight),
        &["under {} N/m3, lighter than grain", LOWER_WEIGHT],
    ),
    row(
        ("ratio-low", Name::Ratio),
        |case| case.without_product(Name::Ratio),
        Under(40, 100),
        |case| case.line(Name::Ratio),
        &["table 7.1 has none under {}", LOWER_RATIO, "is it the friction?"],
    ),
    row(
        ("ratio-high", Name::Ratio),
        |case| case.without_product(Name::Ratio),
        Over(70, 100),
        |case| case.line(Name::Ratio),
        &["over {}, and table 7.1 has none over 0.55", HIGHER_RATIO],
    ),
    row(
        ("friction-corrugated-low", Name::Friction),
        of::friction_on_corrugated_wall_by_itself,
        Under(30, 100),
        |case| case.line(Name::Friction),
        &[
            "table 7.1 has none under {}, and a corrugated wall has more than smooth steel",
            LOWER_FRICTION,
        ],
    ),
    row(
        ("friction-low", Name::Friction),
        of::friction_without_product,
        Under(20, 100),
        |case| case.line(Name::Friction),
        &["under {}, and table 7.1 has none under 0.30", LOWER_FRICTION],
    ),
    row(
        ("friction-high", Name::Friction),
        of::friction_by_itself,
        Over(60, 100),
        |case| case.line(Name::Friction),
        &["over {}, more than grain of 30 degrees has on itself", HIGHER_FRICTION],
    ),
    row(
        ("factor-low", Name::Factor),
        of::factor_by_itself,
        Under(135, 100),
        |case| case.line(Name::Factor),
        &["7.4 gives at least {}", LOWER_FACTOR, "for a row of table 7.1 write its product"],
    ),
    row(
        ("narrow", Name::Diameter),
        |case| Some((case.width(), 1)),
        Under(1000, 1),
        of::width_seen,
        &["under {} mm", NARROWER, SLIP],
    ),
    row(
        ("slender", Name::Diameter),
        |case| Some((case.silo.height(), case.width())),
        Over(6, 1),
        of::shape_seen,
        &["over {} times as high as wide", NARROWER, SLIP],
    ),
    row(
        ("low", Name::Strakes),
        |case| Some((case.silo.height(), case.width())),
        Under(1, 10),
        of::shape_seen,
        &["under {} times as high as wide", LOWER_WALL, SLIP],
    ),
    row(
        ("strakes-low", Name::Strakes),
        |case| Some((case.strakes().1, 1)),
        Under(500, 1),
        |case| format!("the highest strake is {} mm", case.strakes().1),
        &["under {} mm", LOWER_WALL, SLIP],
    ),
    row(
        ("strakes-unequal", Name::Strakes),
        |case| Some((case.strakes().1, case.strakes().0)),
        Over(7, 1),
        |case| format!("strakes of {} and {} mm", case.strakes().0, case.strakes().1),
        &["one over {} times the other", LOWER_WALL, SLIP],
    ),
    row(
        ("one-strake", Name::Strakes),
        |case| Some((case.silo.strakes.len() as u64, 1)),
        Under(2, 1),
        |case| format!("a wall of one strake of {} mm", case.silo.strakes[0]),
        &[LOWER_WALL, "was a count forgotten, as in 8 x 2000 mm?"],
    ),
    row(
        ("first-strake-high", Name::Strakes),
        of::first_strake,
        Over(7, 5),
        of::first_strake_seen,
        &[
            "over {} times as high",
            "top first is due, else each has another's load",
            "were they listed bottom first?",
        ],
    ),
    row(
        ("hopper-high", Name::HopperHeight),
        |case| case.hopper((case.silo.hopper_height.into(), case.silo.wall_height())),
        Over(2, 1),
        of::hopper_seen,
        &["over {} times as high as the wall", "is a strake or the hopper a slip of ten?"],
    ),
    row(
        ("hopper-steep", Name::HopperHeight),
        |case| case.hopper((case.silo.hopper_height.into(), case.silo.hopper_run.into())),
        Over(4, 1),
        of::hopper_seen,
        &[
            "over {} times as high as its run",
            "the steeper, the lower P_n2 at the outlet (5.17)",
            SLIP,
        ],
    ),
    row(
        ("hopper-flat", Name::HopperHeight),
        |case| case.hopper((case.silo.hopper_height.into(), case.silo.hopper_run.into())),
        Under(7, 10),
        of::hopper_seen,
        &[
            "under {} times as high as its run, 35 degrees, where grain may stay lying",
            "was its angle measured from the vertical?",
        ],
    ),
    row(
        ("hopper-small", Name::HopperHeight),
        |case| case.hopper((case.silo.hopper_height.min(case.silo.hopper_run).into(), 1)),
        Under(100, 1),
        of::hopper_seen,
        &["under {} mm", UNIT],
    ),
    row(
        ("outlet-small", Name::HopperRun),
        |case| case.hopper((case.silo.outlet_width().into(), 1)),
        Under(100, 1),
        |case| format!("the outlet is {} mm wide", case.silo.outlet_width()),
        &["under {} mm", "were cm or m meant, or is the run too long?"],
    ),
    row(
        ("filling-eccentricity-small", Name::FillingEccentricity),
        |case| of::eccentricity(case.silo.filling_eccentricity),
        Under(10, 1),
        |case| case.line(Name::FillingEccentricity),
        &["under {} mm", "the smaller, the lower p_p (5.25)", UNIT],
    ),
    row(
        ("outlet-eccentricity-small", Name::OutletEccentricity),
        |case| of::eccentricity(case.silo.outlet_eccentricity),
        Under(10, 1),
        |case| case.line(Name::OutletEccentricity),
        &["under {} mm", "the smaller, the lower p_p (5.25)", UNIT],
    ),
    row(
        ("depths-end-early", Name::Depths),
        of::last_depth,
        Under(1, 2),
        of::last_depth_seen,
        &[
            "above {} of the height of the wall, and loads are greatest at its foot",
            "write depths = strake edges",
        ],
    ),
];

/// What is improbable in a silo that is calculated, in the order of the table.
pub fn doubts(silo: &Description, origin: &Origin) -> Vec<Doubt> {
    let case = &Case { silo, origin };
    let passed = |row: &&Row| (row.measured)(case).is_some_and(|ratio| row.limit.is_passed(ratio));
    let doubt = |row: &Row| Doubt {
        code: row.code,
        name: line_of(row.name, silo),
        words: format!("{}: {}", (row.seen)(case), row.sentence()),
    };
    DOUBTS.iter().filter(passed).map(doubt).collect()
}

/// The codes of all doubts that there are.
pub fn codes() -> impl Iterator<Item = &'static str> {
    DOUBTS.iter().map(|row| row.code)
}

/// A rectangle has sides in place of a diameter.
fn line_of(name: Name, silo: &Description) -> Name {
    match (name, silo.section) {
        (Name::Diameter, Section::Rectangle(..)) => Name::Sides,
        _ => name,
    }
}

/// Characters of doubts that a drawing has room for.
const MOST_DRAWN: usize = 520;

/// Notes that begin with these doubts, as a drawing has them: nothing on the listed depths, which it does not show, and of many doubts
/// the lines alone.
pub fn drawn(doubts: &[Doubt], notes: Vec<String>) -> Vec<String> {
    let others = notes.into_iter().skip(doubts.len());
    let doubts = doubts.iter().filter(|doubt| doubt.name != Name::Depths);
    let shown: Vec<String> = doubts.clone().map(Doubt::shown).collect();
    let shown = match shown.concat().chars().count() <= MOST_DRAWN {
        true => shown,
        false => {
            let mut lines: Vec<&str> = doubts.map(|doubt| doubt.name.word()).collect();
            lines.dedup();
            vec![format!("Doubt: improbable are {}; silo loads says why.", lines.join(", "))]
        }
    };
    shown.into_iter().chain(others).collect()
}
