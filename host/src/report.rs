//! What every output says beside its loads: the silo, the order's own lines, where the product's numbers come from, and what the loads
//! leave out.

use crate::catalogue::{Origin, Wall};
use crate::description::{Description, Section};
use crate::discharge::{Discharge, Shape};
use crate::doubt::{self, Doubt};
use crate::library::{Loads, Refusal, ROW};
use crate::number::{hundredths, raised, tenths};
use crate::units::Units;

/// The program that wrote an output, and its rules.
pub const PROGRAM: &str = concat!("silo ", env!("CARGO_PKG_VERSION"), ", ENV 1991-4:1995");

/// Lines of a text about the order, such as project and customer: a name and what it says.
pub type Labels = Vec<(&'static str, String)>;

/// What a file says of a silo beside its sheet.
#[derive(Clone, Copy)]
pub struct Said<'a> {
    pub file: &'a str,
    pub origin: &'a Origin,
    /// The shell has ring stiffeners.
    pub stiffened: bool,
    pub labels: &'a Labels,
}

pub struct Report<'a> {
    pub file: &'a str,
    pub silo: &'a Description,
    pub origin: &'a Origin,
    pub labels: &'a Labels,
    pub units: Units,
    pub stiffened: bool,
    /// The silo is written as a sheet of bytes and not as a text.
    pub of_sheet: bool,
    /// The loads of the same silo at each strake's lower edge, the last of which is the wall's foot.
    pub edges: Loads,
}

impl<'a> Report<'a> {
    /// Of a silo that the library accepts.
    pub fn of(silo: &'a Description, said: Said<'a>, units: Units) -> Result<Report<'a>, Refusal> {
        let Said { file, origin, stiffened, labels } = said;
        let edges = Loads::of(&silo.at_edges().to_bytes(), silo.strakes.len())?;
        Ok(Report { file, silo, origin, labels, units, stiffened, of_sheet: false, edges })
    }

    /// A load at the wall's foot, z = V.
    pub fn foot(&self, load: usize) -> u32 {
        self.edges.column(load).last().copied().unwrap_or(0)
    }

    /// The product's numbers and where they come from.
    pub fn product(&self) -> String {
        let product = &self.silo.product;
        let ratio = |number: u16| hundredths(number.into());
        let used = ratio(product.factor_used());
        let factor = match product.factor {
            0 => format!("blank, taken as {used} ({BLANK_ANGLE})"),
            _ => used,
        };
        format!(
            "{}: weight {} N/m3, ratio Ks {}, friction mu {}, factor C0 {factor}",
            self.origin.shown(product),
            product.weight,
            ratio(product.ratio),
            ratio(product.friction),
        )
    }

    pub fn discharge(&self) -> Discharge {
        Discharge::of(self.silo)
    }

    /// A circle whose wall is neither concrete nor stiffened, so that it is thin where d_c/t is over 200 (1.4.15.3).
    pub fn is_thin(&self) -> bool {
        let circle = matches!(self.silo.section, Section::Circle(_));
        circle && self.origin.wall != Some(Wall::Concrete) && !self.stiffened
    }

    /// A depth's numbers as ENV names them, and their units.
    pub fn columns(&self) -> [(&'static str, &'static str); ROW] {
        let (pressure, per_metre) = (self.units.pressure(), self.units.per_metre());
        [
            ("z", "mm"),
            ("p_hf", pressure),
            ("p_wf", pressure),
            ("p_vf", pressure),
            ("P_w", per_metre),
            ("p_he", pressure),
            ("p_we", pressure),
            ("p_p", pressure),
        ]
    }

    /// A depth's numbers as they are written: z in mm, then its loads.
    pub fn row(&self, numbers: &[u32]) -> Vec<String> {
        let loads = numbers.iter().skip(1).map(|load| self.units.show(*load));
        numbers.iter().take(1).map(u32::to_string).chain(loads).collect()
    }

    /// What the loads leave out, as far as it applies to this silo.
    pub fn notes(&self) -> Vec<String> {
        let silo = self.silo;
        let discharge = self.discharge();
        let flat_and_squat = silo.is_flat() && discharge.shape != Shape::Slender;
        let of_loads = [
            Some(wall_load(&discharge)),
            Some(self.patch()),
            self.unreduced(),
            flat_and_squat.then(|| heap(silo)),
            (!silo.is_flat()).then(|| TRANSITION.to_string()),
            silo.outlet_is_passed().then(|| eccentricity(silo)),
        ];
        let mut notes = self.notes_of_silo();
        notes.extend(of_loads.into_iter().flatten());
        notes
    }

    /// What is improbable in this silo.
    pub fn doubts(&self) -> Vec<Doubt> {
        doubt::doubts(self.silo, self.origin)
    }

    /// Doubts, then those of the rules, the grain and the product, which every output has.
    pub fn notes_of_silo(&self) -> Vec<String> {
        let silo = self.silo;
        let notes = [
            Some(EDITION.to_string()),
            (silo.headroom > 0).then(|| headroom(silo)),
            self.origin.has_own_weight(&silo.product).then(|| own_weight(silo)),
            self.origin.has_friction_on_steel(&silo.product).then(|| friction(silo)),
            (silo.product.factor == 0).then(|| blank_factor(silo)),
        ];
        let doubts = self.doubts();
        doubts.iter().map(Doubt::shown).chain(notes.into_iter().flatten()).collect()
    }

    /// Why the patch acts on squares, of a circle that is not thin.
    pub fn stiffness(&self) -> &'static str {
        match self.origin.wall {
            Some(Wall::Concrete) => "is concrete",
            _ => "has stiffeners",
        }
    }

    /// Where the patch load acts (5.2.1.1 and 5.24).
    fn patch(&self) -> String {
        let silo = self.silo;
        let side_in_tenths = silo.section.patch_side();
        let side = tenths(side_in_tenths);
        let squares = format!("two opposite squares of s = {side} mm at any place of the wall");
        let place = match silo.section {
            Section::Circle(_) if self.is_thin() => {
                let others = match self.origin.wall {
                    Some(_) => "",
                    None => {
                        "; on a concrete or stiffened wall on two opposite squares (5.2.1.1, 4)"
                    }
                };
                format!("a band s = {side} mm high at any depth, p_p times the cosine of the angle round the shell (5.10, 5.11){others}")
            }
            Section::Circle(_) => {
                format!("{squares}, which {} (5.2.1.1, 4; 5.10)", self.stiffness())
            }
            Section::Rectangle(..) => format!("{squares} (5.10)"),
        };
        let lower = match 10 * silo.grain_height() < side_in_tenths {
            true if silo.headroom == 0 => " The wall is lower than s.",
            true => " The grain at the wall is lower than s.",
            false => "",
        };
        format!("p_he is without the patch load p_p, which is to be added, as p_he + p_p of the strakes has it: it acts on {place}.{lower}")
    }

    /// What clause 5.3 lets be less in a squat silo.
    pub fn unreduced(&self) -> Option<String> {
        match self.discharge().shape {
            Shape::Slender => None,
            Shape::Squat => Some(SQUAT.to_string()),
            Shape::Low => Some(LOW.to_string()),
        }
    }
}

const EDITION: &str =
    "ENV 1991-4:1995, which EN 1991-4:2006 has replaced; characteristic values without partial factors.";
const TRANSITION: &str =
    "Hopper: without the extra pressure at the transition of a mass-flow hopper (5.26), which these rules do not cover.";
const SQUAT: &str =
    "Squat silo: patch load (5.36) and pressure near the surface (5.3, 3) are not reduced; both err on the heavy side.";
const LOW: &str =
    "Squat silo, no higher than wide: the patch load is given, which 5.33 makes 0, and the pressure near the surface is not reduced \
     (5.3, 3); both err on the heavy side.";

/// Where a blank factor comes from.
pub const BLANK_ANGLE: &str = "7.4 at 40 degrees";

/// What a blank factor stands for, and which products need another.
fn blank_factor(silo: &Description) -> String {
    format!(
        "Factor C0 is blank and taken as {}, equation 7.4 at an internal friction angle of 40 degrees. A soft product, up to 30 \
         degrees, needs factor = 1.35 written in; one over 40 degrees needs more (7.4).",
        hundredths(silo.product.factor_used().into())
    )
}

/// From where depths and loads are counted.
fn headroom(silo: &Description) -> String {
    format!(
        "Headroom g = {} mm: z is counted from the brim, loads and h from the grain's equivalent surface (1.4.1), g below it; above the \
         surface loads are 0. Filled higher, they are greater.",
        silo.headroom
    )
}

/// What 5.37 would add.
fn heap(silo: &Description) -> String {
    let level = match silo.headroom {
        0 => "grain level with the brim",
        _ => "grain that lies level",
    };
    format!(
        "Flat floor: its load (5.13) is for {level}. Under a heap 5.37 gives a greater one for squat silos, which is not calculated: \
         this errs on the light side."
    )
}

fn wall_load(discharge: &Discharge) -> String {
    let discharge = match discharge.shape {
        Shape::Low => "C_w is 1, so discharge adds nothing to it (5.33)".to_string(),
        Shape::Slender | Shape::Squat => format!(
            "on discharge C_w {}, the factor on wall friction, applies to it too (5.20)",
            discharge.friction.shown()
        ),
    };
    format!("P_w is the filling value; {discharge}.")
}

/// What a weight of one's own has to be.
fn own_weight(silo: &Description) -> String {
    let weight = u64::from(silo.product.weight);
    format!(
        "Own weight: table 7.1's are upper limits (7.2, 1); if {weight} N/m3 is a measured mean, it needs at least {} N/m3 (times 1.15, \
         7.3.1, 3).",
        raised(weight)
    )
}

fn friction(silo: &Description) -> String {
    format!(
        "Friction {} is that of table 7.1 on steel; it does not hold for corrugated walls (note 4 to the table).",
        hundredths(silo.product.friction.into())
    )
}

fn eccentricity(silo: &Description) -> String {
    format!(
        "The outlet's eccentricity of {} mm lies beyond the outlet's own edge: the hopper is calculated as symmetric.",
        silo.outlet_eccentricity
    )
}

/// Lines of whole words, each at most so many characters wide unless one word is wider.
pub fn wrapped(text: &str, width: usize) -> Vec<String> {
    filled(text.split_whitespace(), width)
}

/// The same, broken behind commas and semicolons alone where the parts between them fit a line.
pub fn wrapped_in_parts(text: &str, width: usize) -> Vec<String> {
    let words: Vec<&str> = text.split_whitespace().collect();
    let parts = words.chunk_by(|word, _| !word.ends_with([',', ';'])).map(|part| part.join(" "));
    let parts = parts.flat_map(|part| match part.chars().count() <= width {
        true => vec![part],
        false => wrapped(&part, width),
    });
    filled(parts, width)
}

fn filled<T: AsRef<str>>(parts: impl Iterator<Item = T>, width: usize) -> Vec<String> {
    let mut lines: Vec<String> = Vec::new();
    for part in parts {
        let part = part.as_ref();
        match lines.last_mut() {
            Some(line) if line.chars().count() + 1 + part.chars().count() <= width => {
                *line += " ";
                *line += part;
            }
            _ => lines.push(part.to_string()),
        }
    }
    lines
}
