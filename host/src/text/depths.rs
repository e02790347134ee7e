//! The depths of a silo's text: a list, even steps, or the strakes' edges.

use crate::description::{Description, MOST_DEPTHS};
use crate::message::{self, List, Mend, Slip};
use crate::name;
use crate::number::{LENGTH, STEP, STRAKE};
use crate::value;

/// The three ways to say the depths.
pub enum Depths {
    /// The brim and each strake's lower edge.
    StrakeEdges,
    /// From the brim in steps of so many mm, and the wall's foot.
    Every(u32),
    List(Vec<u32>),
}

/// Ways to say the strakes' edges.
const EDGES: [&str; 16] = [
    "strake edges",
    "strake edge",
    "strakes",
    "edges",
    "every strake",
    "each strake",
    "all strakes",
    "every edge",
    "each edge",
    "every strake edge",
    "bords de viroles",
    "bords des viroles",
    "bord de virole",
    "viroles",
    "chaque virole",
    "toutes les viroles",
];

/// Words before a step.
const EVERY: [&str; 4] = ["every", "each", "tous les", "toutes les"];

/// What follows a word at the start of a value.
fn after<'a>(value: &'a str, word: &str) -> Option<&'a str> {
    let start = value.get(..word.len())?;
    let rest = &value[word.len()..];
    let ends = rest.is_empty() || rest.starts_with(|c: char| c.is_whitespace());
    Some(rest.trim()).filter(|_| ends && start.eq_ignore_ascii_case(word))
}

/// A step, mm; a unit alone is one of it.
fn step(value: &str) -> Result<u64, Slip> {
    value::quantity(value, &STEP).map_err(|slip| {
        let one = format!("1 {value}");
        match value::quantity(&one, &STEP) {
            Ok(_) => slip.with([Mend::plain(one)]),
            Err(_) => slip,
        }
    })
}

/// From one depth to another, with a step behind it or without.
fn range(value: &str) -> Option<Slip> {
    const TO: [&str; 5] = ["to", "à", "…", "-", "–"];
    const BY: [&str; 7] = ["by", "step", "steps", "every", "of", "par", "pas"];
    let spaced = value.replace("...", "…").replace("..", "…").replace('…', " … ");
    let spaced = spaced.replace('-', " - ").replace('–', " – ");
    let words: Vec<&str> = spaced.split_whitespace().collect();
    let is_number = |word: &&str| word.starts_with(|c: char| c.is_ascii_digit());
    let to = words.iter().position(|word| TO.contains(word))?;
    words[..to].iter().find(|word| is_number(word))?;
    words.get(to + 1).filter(|word| is_number(word))?;
    let by = words.iter().rposition(|word| BY.contains(word));
    let step = by.map(|by| words[by + 1..].join(" "));
    let step = step.filter(|step| value::quantity(step, &STEP).is_ok_and(|step| step > 0));
    let mends = match step {
        Some(step) => vec![format!("every {step}")],
        None => vec!["every 500 mm".to_string(), "strake edges".to_string()],
    };
    Some(Slip::new(message::Depths::Range).with(mends.into_iter().map(Mend::plain)))
}

impl Depths {
    pub fn read(value: &str) -> Result<Depths, Slip> {
        let plain = name::plain(value);
        let edges = plain.strip_prefix("at ").unwrap_or(&plain);
        if EDGES.contains(&edges) {
            return Ok(Depths::StrakeEdges);
        }
        if let Some(rest) = EVERY.iter().find_map(|every| after(value, every)) {
            return match step(rest).map_err(|slip| slip.between("every ", ""))? {
                0 => Err(Slip::new(message::Depths::NoStep)),
                step => Ok(Depths::Every(step as u32)),
            };
        }
        if let Some(slip) = range(value) {
            return Err(slip);
        }
        if !value.starts_with(|c: char| c.is_ascii_digit() || "+-.".contains(c)) {
            let edges =
                ["strake", "edge", "joint", "virole"].iter().any(|word| plain.contains(word));
            let mend = edges.then(|| Mend::plain("strake edges"));
            return Err(Slip::new(message::Depths::NotDepths).with(mend));
        }
        let depths = value::list(value, &LENGTH, MOST_DEPTHS).map_err(|slip| {
            match *slip.what == List::NotHeights.into() {
                true => Slip::new(message::Depths::NotDepths).with(slip.mends),
                false => slip,
            }
        })?;
        Ok(Depths::List(depths.into_iter().map(|depth| depth as u32).collect()))
    }

    /// The depths on a wall of these strakes, mm.
    pub fn along(&self, strakes: &[u16]) -> Result<Vec<u32>, Slip> {
        let mut edges = vec![0];
        for height in strakes {
            edges.push(edges[edges.len() - 1] + u32::from(*height));
        }
        let foot = edges[edges.len() - 1];
        match self {
            Depths::List(list) => Ok(list.clone()),
            Depths::Every(step) if *step > foot && likely(strakes) => Err(too_long(*step, foot)),
            Depths::StrakeEdges if edges.len() <= MOST_DEPTHS => Ok(edges),
            Depths::Every(step) if (foot / step) as usize + 2 <= MOST_DEPTHS => {
                let steps = (0..=foot / step).map(|i| i * step);
                Ok(steps.chain((foot % step > 0).then_some(foot)).collect())
            }
            _ if strakes.len() > 24 => Err(Slip::new(message::Depths::StrakesFirst(strakes.len()))),
            _ if !likely(strakes) => Err(Slip::new(heights_first(strakes))),
            _ => {
                let mend = Mend::plain(format!("every {} mm", foot.div_ceil(199)));
                Err(Slip::new(message::Depths::TooMany { most: MOST_DEPTHS, foot }).with([mend]))
            }
        }
    }
}

/// A height that the library takes.
fn is_strake(height: &u16) -> bool {
    (STRAKE.limits.0..=STRAKE.limits.1).contains(&u64::from(*height))
}

/// Strakes that the library takes, so that a step can be measured by them.
fn likely(strakes: &[u16]) -> bool {
    strakes.iter().all(is_strake)
}

/// The first strake that the library does not take.
fn heights_first(strakes: &[u16]) -> message::Depths {
    let first = strakes.iter().position(|height| !is_strake(height)).unwrap_or(0);
    message::Depths::HeightsFirst { strake: first + 1, height: strakes[first] }
}

/// A step that leaves the wall at once, as metres for millimetres do.
fn too_long(step: u32, foot: u32) -> Slip {
    let meant = step / 1000;
    let few = step.is_multiple_of(1000) && (foot.div_ceil(199).max(1)..=foot).contains(&meant);
    let mend = few.then(|| Mend::plain(format!("every {meant} mm")));
    Slip::new(message::Depths::StepTooLong { step, foot }).with(mend)
}

/// The shortest of the three ways that says these depths.
pub fn written(description: &Description) -> String {
    let says = |depths: &Depths| {
        depths.along(&description.strakes).is_ok_and(|along| along == description.depths)
    };
    if says(&Depths::StrakeEdges) {
        return "strake edges".to_string();
    }
    let step = description.depths.get(1).copied().unwrap_or(0);
    if step > 0 && says(&Depths::Every(step)) {
        return format!("every {step} mm");
    }
    let depths: Vec<String> = description.depths.iter().map(u32::to_string).collect();
    depths.join(", ") + " mm"
}
