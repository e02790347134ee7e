//! Sides judged otherwise by one call: by another rule than 20's, at another place or with another number, and by the length calls too.

use reference::sheet::{judged, measure, parse, records, Asked, Silo};

/// Calls that take a sheet.
#[derive(Clone, Copy, Debug, PartialEq, Eq)]
pub enum Call {
    Loads,
    Page,
    ShellPatch,
    DepthFor,
    DepthsFor,
    AnswersLength,
    PageLength,
}

/// A rule for the sides, the refusals that come before it, and its own number.
#[derive(Clone, Copy)]
pub struct Rule {
    breaks: fn(&Silo) -> bool,
    after: fn(u64) -> bool,
    number: u32,
}

/// The rule as it is due from the calls for loads.
const LONG: Rule = Rule { breaks: Silo::is_long, after: |refusal| refusal <= 6, number: 20 };

/// The rule as it is due from the length calls.
const NONE: Rule = Rule { breaks: |_| false, ..LONG };

impl Rule {
    /// The refusal of a sheet with a given depth by this rule and all others.
    fn refusal(&self, sheet: &[u8], given: u64) -> u32 {
        let other = judged(sheet, given, Asked::Length).err();
        match (other, records(sheet)) {
            (Some(first), _) if (self.after)(first) => first as u32,
            (_, Ok(silo)) if (self.breaks)(&silo) => self.number,
            _ => other.unwrap_or(0) as u32,
        }
    }
}

type Rules = &'static [(&'static str, Rule)];

/// A call that judges the sides by another rule.
pub type Sides = Option<(Call, Rule)>;

/// The answer of a call, judged by its own rule or by the other one. A long bin that this lets pass is calculated with its long side cut.
pub fn answered<A: From<u32>>(
    sides: Sides,
    call: Call,
    (sheet, given): (&[u8], u64),
    own: impl FnOnce(&[u8]) -> A,
) -> A {
    match sides {
        Some((broken, rule)) if broken == call => match rule.refusal(sheet, given) {
            0 => own(&shortened(sheet)),
            refusal => refusal.into(),
        },
        _ => own(sheet),
    }
}

/// The sheet of a long bin with its sides at the limit of 20, any other one as it is.
pub fn shortened(sheet: &[u8]) -> Vec<u8> {
    match (parse(sheet), measure(sheet)) {
        (Err(20), Ok(mut silo)) => {
            let most = 3 * silo.d_c();
            silo.section.iter_mut().for_each(|side| *side = most.min(*side));
            silo.sheet()
        }
        _ => sheet.to_vec(),
    }
}

fn long_side(silo: &Silo) -> u64 {
    silo.a().max(silo.b())
}

fn is_circle(silo: &Silo) -> bool {
    silo.section.len() == 1
}

/// Wrong rules of the calls for loads. In the shell patch call no 20 is the same as 20 after 19.
const RULES: Rules = &[
    ("no 20", NONE),
    (
        "20 for exactly three times",
        Rule { breaks: |silo| long_side(silo) >= 3 * silo.d_c(), ..LONG },
    ),
    (
        "20 above three times and a millimetre",
        Rule { breaks: |silo| long_side(silo) > 3 * silo.d_c() + 1, ..LONG },
    ),
    ("20 above twice", Rule { breaks: |silo| long_side(silo) > 2 * silo.d_c(), ..LONG }),
    ("20 above four times", Rule { breaks: |silo| long_side(silo) > 4 * silo.d_c(), ..LONG }),
    (
        "20 by times in whole numbers",
        Rule { breaks: |silo| long_side(silo) / silo.d_c() > 3, ..LONG },
    ),
    (
        "20 by three times modulo 2^16",
        Rule {
            breaks: |silo| !is_circle(silo) && long_side(silo) > 3 * silo.d_c() % 65_536,
            ..LONG
        },
    ),
    ("20 for a long side a alone", Rule { breaks: |silo| silo.a() > 3 * silo.b(), ..LONG }),
    ("20 for a long side b alone", Rule { breaks: |silo| silo.b() > 3 * silo.a(), ..LONG }),
    (
        "20 for circles by h",
        Rule {
            breaks: |silo| is_circle(silo) && silo.height() > 3 * silo.d_c() || silo.is_long(),
            ..LONG
        },
    ),
    ("20 for every circle", Rule { breaks: |silo| is_circle(silo) || silo.is_long(), ..LONG }),
    ("20 for every rectangle", Rule { breaks: |silo| !is_circle(silo), ..LONG }),
    ("20 before 6", Rule { after: |refusal| refusal < 6, ..LONG }),
    ("20 after 7", Rule { after: |refusal| refusal <= 7, ..LONG }),
    ("8 before 20", Rule { after: |refusal| refusal <= 6 || refusal == 8, ..LONG }),
    ("9 before 20", Rule { after: |refusal| refusal <= 6 || refusal == 9, ..LONG }),
    ("10 before 20", Rule { after: |refusal| refusal <= 6 || refusal == 10, ..LONG }),
    ("11 before 20", Rule { after: |refusal| refusal <= 6 || refusal == 11, ..LONG }),
    ("17 before 20", Rule { after: |refusal| refusal <= 6 || refusal == 17, ..LONG }),
    ("12 before 20", Rule { after: |refusal| refusal <= 6 || refusal == 12, ..LONG }),
    ("20 after all others", Rule { after: |_| true, ..LONG }),
    ("6 for 20", Rule { number: 6, ..LONG }),
    ("13 for 20", Rule { number: 13, ..LONG }),
    ("19 for 20", Rule { number: 19, ..LONG }),
];

/// Rules of the length calls, which have none.
const LENGTHS: Rules = &[
    ("20 too", LONG),
    ("20 too, after all others", Rule { after: |_| true, ..LONG }),
    (
        "20 too, before a later refusal alone",
        Rule { breaks: |silo| silo.is_long() && measure(&silo.sheet()).is_err(), ..LONG },
    ),
];

/// Calls with the rule that is due from them, and with wrong ones.
pub const CALLS: [(&[Call], Rule, Rules); 2] = [
    (&[Call::Loads, Call::Page, Call::ShellPatch, Call::DepthFor, Call::DepthsFor], LONG, RULES),
    (&[Call::AnswersLength, Call::PageLength], NONE, LENGTHS),
];
