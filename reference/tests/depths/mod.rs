//! Broken calls for depths: another depth by both calls, marks and lists read otherwise, refusals in another order.

use crate::{answers_of, down, is_squat, magnified, without_headroom};
use reference::answers::{Row, P_HE, P_HF, P_P, P_WE};
use reference::calls::{Library, UNTOUCHED};
use reference::depths::{judge, MOST};
use reference::formulas::{c0, horizontal, Discharge};
use reference::fraction::whole;
use reference::linked::Linked;
use reference::sheet::{parse, Silo};

type Reply = fn(&Silo, u32) -> u64;
type Single = fn(&[u8], u32) -> u64;
type List = fn(&[u8], &[u32], &mut [u32]) -> u32;

/// Both calls, or both by another depth for a pressure.
#[derive(Clone, Copy)]
pub enum Depths {
    Calls(Single, List),
    Replied(Reply),
}

impl Depths {
    pub fn single(&self, sheet: &[u8], pressure: u32) -> u64 {
        match self {
            Depths::Calls(single, _) => single(sheet, pressure),
            Depths::Replied(reply) => match parse(sheet) {
                Ok(silo) => MARK + reply(&silo, pressure),
                Err(refusal) => refusal,
            },
        }
    }

    pub fn list(&self, sheet: &[u8], pressures: &[u32], list: &mut [u32]) -> u32 {
        match self {
            Depths::Calls(_, depths) => depths(sheet, pressures, list),
            Depths::Replied(reply) => put(sheet, pressures, list, *reply),
        }
    }
}

const MARK: u64 = 1 << 32;

/// The library's own.
pub const WHOLE: Depths = Depths::Calls(depth_for, depths_for);

/// The depths as they are due, made here: the stand-ins with others change nothing else, or this would be found.
pub const SAME: Depths = Depths::Replied(depth);

pub fn depth_for(sheet: &[u8], pressure: u32) -> u64 {
    // SAFETY: the pointer is a slice's own.
    unsafe { Linked.depth_for(sheet, pressure) }
}

pub fn depths_for(sheet: &[u8], pressures: &[u32], list: &mut [u32]) -> u32 {
    // SAFETY: each pointer is a slice's own.
    unsafe { Linked.depths_for(sheet, pressures, list) }
}

/// The answer due, and a list of other depths where it is 0.
fn put(sheet: &[u8], pressures: &[u32], list: &mut [u32], reply: Reply) -> u32 {
    match judge(sheet, pressures, list.len()) {
        Ok(silo) => {
            let depths = pressures.iter().map(|pressure| reply(&silo, *pressure) as u32);
            list.iter_mut().zip(depths).for_each(|(number, depth)| *number = depth);
            0
        }
        Err(refusal) => refusal as u32,
    }
}

/// The library's depth for an accepted silo.
fn depth(silo: &Silo, pressure: u32) -> u64 {
    depth_for(&silo.sheet(), pressure) % MARK
}

/// The greatest depth, from 0 to V, with a property that holds from 0 down to some depth.
fn greatest(silo: &Silo, holds: impl Fn(u64) -> bool) -> u64 {
    let (mut low, mut high) = (0, silo.foot());
    while low < high {
        let middle = (low + high).div_ceil(2);
        if holds(middle) {
            low = middle;
        } else {
            high = middle - 1;
        }
    }
    low
}

/// The same where another number of the library's row is not above the pressure.
fn by_row(silo: &Silo, pressure: u32, number: fn(&Silo, &Row<u32>) -> u32) -> u64 {
    greatest(silo, |z| {
        let rows = answers_of(&Silo { depths: vec![z], ..silo.clone() }).rows;
        number(silo, &rows[0]) <= pressure
    })
}

/// Wrong depths.
pub const REPLIES: &[(&str, Reply)] = &[
    ("the least depth with p_he above it", |silo, pressure| {
        (depth(silo, pressure) + 1).min(silo.foot())
    }),
    ("V + 1 at the foot", |silo, pressure| match depth(silo, pressure) {
        depth if depth == silo.foot() => depth + 1,
        depth => depth,
    }),
    ("never V", |silo, pressure| depth(silo, pressure).min(silo.foot() - 1)),
    ("a millimetre less", |silo, pressure| depth(silo, pressure).max(silo.g() + 1) - 1),
    ("p_he strictly below", |silo, pressure| match pressure {
        0 => 0,
        _ => depth(silo, pressure - 1),
    }),
    ("a pascal more", |silo, pressure| depth(silo, pressure.saturating_add(1))),
    ("p_hf for p_he", |silo, pressure| by_row(silo, pressure, |_, row| row[P_HF])),
    ("p_we for p_he", |silo, pressure| by_row(silo, pressure, |_, row| row[P_WE])),
    ("p_p beside p_he", |silo, pressure| by_row(silo, pressure, |_, row| row[P_HE] + row[P_P])),
    ("p_he by C0 in squat bins", |silo, pressure| {
        by_row(silo, pressure, |silo, row| magnified(row[P_HF], &c0(silo)))
    }),
    ("p_he rounded down", |silo, pressure| {
        by_row(silo, pressure, |silo, row| {
            down(&whole(row[P_HF].into()).times(&Discharge::of(silo).c_h)) as u32
        })
    }),
    ("p_he by the exact p_hf", |silo, pressure| {
        let (c_h, bound) = (Discharge::of(silo).c_h, whole(pressure.into()));
        greatest(silo, |z| horizontal(silo, z).high.times(&c_h) <= bound)
    }),
    ("p_he by 135 for a blank C0", |silo, pressure| match silo.factor {
        0 => depth(&Silo { factor: 135, ..silo.clone() }, pressure),
        _ => depth(silo, pressure),
    }),
    ("0 for pressure 0 under a headroom", |silo, pressure| match pressure {
        0 => 0,
        _ => depth(silo, pressure),
    }),
    ("depths from the surface down", |silo, pressure| silo.load_depth(depth(silo, pressure))),
    ("p_he without headroom", |silo, pressure| match without_headroom(silo) {
        level if parse(&level.sheet()).is_ok() => depth(&level, pressure),
        _ => depth(silo, pressure),
    }),
    ("whole centimetres", |silo, pressure| depth(silo, pressure) / 10 * 10),
    ("lower edges alone", |silo, pressure| {
        let depth = depth(silo, pressure);
        silo.edges().into_iter().filter(|edge| *edge <= depth).max().unwrap_or(0)
    }),
    ("listed depths alone", |silo, pressure| {
        let depth = depth(silo, pressure);
        silo.depths.iter().copied().filter(|z| *z <= depth).max().unwrap_or(0)
    }),
    ("a pressure with a sign", |silo, pressure| depth(silo, (pressure as i32).max(0) as u32)),
    ("a pressure modulo 2^16", |silo, pressure| depth(silo, pressure % 65_536)),
    ("V for every pressure", |silo, _| silo.foot()),
    ("the surface for every pressure", |silo, _| silo.g()),
];

/// The library's answer for an accepted sheet, or another one.
fn other_for_accepted(sheet: &[u8], pressure: u32, other: fn(&Silo, u64) -> u64) -> u64 {
    let answer = depth_for(sheet, pressure);
    parse(sheet).map_or(answer, |silo| other(&silo, answer))
}

/// Wrong answers to a single pressure.
pub const SINGLES: &[(&str, Single)] = &[
    ("a depth without its mark", |sheet, pressure| depth_for(sheet, pressure) % MARK),
    ("a mark on refusals too", |sheet, pressure| MARK | depth_for(sheet, pressure)),
    ("a mark of 2^33", |sheet, pressure| {
        other_for_accepted(sheet, pressure, |_, answer| answer + MARK)
    }),
    ("a millimetre less than the list", |sheet, pressure| {
        other_for_accepted(sheet, pressure, |silo, answer| {
            answer - u64::from(answer > MARK + silo.g())
        })
    }),
    ("21 for pressure 0", |sheet, pressure| match (parse(sheet), pressure) {
        (Ok(_), 0) => 21,
        _ => depth_for(sheet, pressure),
    }),
    ("13 for squat bins", |sheet, pressure| {
        other_for_accepted(sheet, pressure, |silo, answer| if is_squat(silo) { 13 } else { answer })
    }),
];

/// The library's answer, and its depths changed where it succeeds.
fn replied(
    sheet: &[u8],
    pressures: &[u32],
    list: &mut [u32],
    change: impl Fn(&Silo, &mut [u32]),
) -> u32 {
    let answer = depths_for(sheet, pressures, list);
    if let (0, Ok(silo)) = (answer, parse(sheet)) {
        change(&silo, list);
    }
    answer
}

/// The library's answer, or another one in its place, by the number of pressures and the reply list's length.
fn answered(
    sheet: &[u8],
    pressures: &[u32],
    list: &mut [u32],
    other: fn(u32, &[u32], usize) -> Option<u32>,
) -> u32 {
    let answer = depths_for(sheet, pressures, &mut list.to_vec());
    match other(answer, pressures, list.len()) {
        Some(other) => other,
        None => depths_for(sheet, pressures, list),
    }
}

/// Depths one by one, for pressures that the library refuses with 21 and this stand-in accepts.
fn accepting(
    sheet: &[u8],
    pressures: &[u32],
    list: &mut [u32],
    accepts: fn(&[u32]) -> bool,
) -> u32 {
    match depths_for(sheet, pressures, list) {
        21 if accepts(pressures) && list.len() == pressures.len() => {
            let depths = pressures.iter().map(|pressure| depth_for(sheet, *pressure) as u32);
            list.iter_mut().zip(depths).for_each(|(number, depth)| *number = depth);
            0
        }
        answer => answer,
    }
}

/// Whether there are as many pressures as there may be.
fn fit(pressures: &[u32]) -> bool {
    (1..=MOST).contains(&pressures.len())
}

/// Whether the library refuses these pressures with 21.
fn are_wrong(pressures: &[u32]) -> bool {
    !fit(pressures) || !pressures.is_sorted()
}

/// The library's answer, and the list cleared at some refusals.
fn clearing(sheet: &[u8], pressures: &[u32], list: &mut [u32], refusals: &[u32]) -> u32 {
    let answer = depths_for(sheet, pressures, list);
    if refusals.contains(&answer) {
        list.fill(0);
    }
    answer
}

/// Wrong lists, lists read otherwise, and refusals in another order.
pub const LISTS: &[(&str, List)] = &[
    ("nothing written", |sheet, pressures, list| depths_for(sheet, pressures, &mut list.to_vec())),
    ("the last depth not written", |sheet, pressures, list| {
        replied(sheet, pressures, list, |_, list| list[list.len() - 1] = UNTOUCHED)
    }),
    ("the first depth repeated", |sheet, pressures, list| {
        replied(sheet, pressures, list, |_, list| list.fill(list[0]))
    }),
    ("the deepest first", |sheet, pressures, list| {
        replied(sheet, pressures, list, |_, list| list.reverse())
    }),
    ("a millimetre more than the single question", |sheet, pressures, list| {
        replied(sheet, pressures, list, |silo, list| {
            list.iter_mut().for_each(|depth| *depth = (*depth + 1).min(silo.foot() as u32));
        })
    }),
    ("a pass that goes on below the depth before", |sheet, pressures, list| {
        replied(sheet, pressures, list, |silo, list| {
            for i in 1..list.len() {
                list[i] = list[i].max(list[i - 1] + 1).min(silo.foot() as u32);
            }
        })
    }),
    ("a pass that ends at V", |sheet, pressures, list| {
        replied(sheet, pressures, list, |silo, list| {
            let foot = silo.foot() as u32;
            let after = list.iter_mut().skip_while(|depth| **depth != foot).skip(1);
            after.for_each(|depth| *depth = 0);
        })
    }),
    ("a pass by strakes", |sheet, pressures, list| {
        replied(sheet, pressures, list, |silo, list| {
            let edges = silo.edges();
            let above = |depth: u32| edges.iter().rev().find(|edge| **edge <= depth.into());
            list.iter_mut().for_each(|depth| *depth = above(*depth).map_or(0, |edge| *edge as u32));
        })
    }),
    ("equal pressures refused", |sheet, pressures, list| {
        answered(sheet, pressures, list, |answer, pressures, _| {
            let equal = pressures.windows(2).any(|pair| pair[0] == pair[1]);
            ([0, 22].contains(&answer) && equal).then_some(21)
        })
    }),
    ("32 pressures refused", |sheet, pressures, list| {
        answered(sheet, pressures, list, |answer, pressures, _| {
            ([0, 22].contains(&answer) && pressures.len() == MOST).then_some(21)
        })
    }),
    ("one pressure refused", |sheet, pressures, list| {
        answered(sheet, pressures, list, |answer, pressures, _| {
            ([0, 22].contains(&answer) && pressures.len() == 1).then_some(21)
        })
    }),
    ("33 pressures accepted", |sheet, pressures, list| {
        accepting(sheet, pressures, list, |pressures| {
            pressures.len() == MOST + 1 && pressures.is_sorted()
        })
    }),
    ("no pressures accepted", |sheet, pressures, list| {
        accepting(sheet, pressures, list, |pressures| pressures.is_empty())
    }),
    ("falling pressures accepted", |sheet, pressures, list| accepting(sheet, pressures, list, fit)),
    ("the last pressure not compared", |sheet, pressures, list| {
        accepting(sheet, pressures, list, |pressures| {
            fit(pressures) && pressures[..pressures.len() - 1].is_sorted()
        })
    }),
    ("the first pressure not compared", |sheet, pressures, list| {
        accepting(sheet, pressures, list, |pressures| fit(pressures) && pressures[1..].is_sorted())
    }),
    ("the ends alone compared", |sheet, pressures, list| {
        accepting(sheet, pressures, list, |pressures| {
            fit(pressures) && pressures.first() <= pressures.last()
        })
    }),
    ("falling by one accepted", |sheet, pressures, list| {
        accepting(sheet, pressures, list, |pressures| {
            let mut pairs = pressures.windows(2);
            fit(pressures) && pairs.all(|pair| pair[0] <= pair[1].saturating_add(1))
        })
    }),
    ("pressures counted by their lowest byte", |sheet, pressures, list| {
        let length = pressures.len() % 256;
        depths_for(sheet, &pressures[..length], list)
    }),
    ("pressures counted by their lowest two bytes", |sheet, pressures, list| {
        let length = pressures.len() % 65_536;
        depths_for(sheet, &pressures[..length], list)
    }),
    ("pressures with a sign", |sheet, pressures, list| {
        let signed: Vec<i32> = pressures.iter().map(|pressure| *pressure as i32).collect();
        match depths_for(sheet, pressures, &mut list.to_vec()) {
            0 | 22 if !signed.is_sorted() => 21,
            _ => depths_for(sheet, pressures, list),
        }
    }),
    ("longer reply lists accepted", |sheet, pressures, list| {
        let length = list.len().min(pressures.len());
        depths_for(sheet, pressures, &mut list[..length])
    }),
    ("shorter reply lists accepted", |sheet, pressures, list| {
        let length = match list.len() {
            0 => pressures.len(),
            length => length.min(pressures.len()),
        };
        depths_for(sheet, &pressures[..length], list)
    }),
    ("a reply list's length by its lowest byte", |sheet, pressures, list| {
        let same = list.len() % 256 == pressures.len() % 256;
        let length = if same { list.len().min(pressures.len()) } else { list.len() };
        depths_for(sheet, pressures, &mut list[..length])
    }),
    ("a reply list's length by its lowest two bytes", |sheet, pressures, list| {
        let length = list.len() % 65_536;
        depths_for(sheet, pressures, &mut list[..length])
    }),
    ("a reply list of 32 always", |sheet, pressures, list| {
        answered(sheet, pressures, list, |answer, _, length| {
            ([0, 22].contains(&answer) && length != MOST).then_some(22)
        })
    }),
    ("22 before 21", |sheet, pressures, list| {
        answered(sheet, pressures, list, |answer, pressures, length| {
            (answer == 21 && length != pressures.len()).then_some(22)
        })
    }),
    ("22 before a falling list's 21", |sheet, pressures, list| {
        answered(sheet, pressures, list, |answer, pressures, length| {
            (answer == 21 && fit(pressures) && length != pressures.len()).then_some(22)
        })
    }),
    ("22 before all", |sheet, pressures, list| match list.len() == pressures.len() {
        true => depths_for(sheet, pressures, list),
        false => 22,
    }),
    ("21 before all", |sheet, pressures, list| match are_wrong(pressures) {
        true => 21,
        false => depths_for(sheet, pressures, list),
    }),
    ("21 before 20", |sheet, pressures, list| {
        answered(sheet, pressures, list, |answer, pressures, _| {
            (answer == 20 && are_wrong(pressures)).then_some(21)
        })
    }),
    ("21 before 12", |sheet, pressures, list| {
        answered(sheet, pressures, list, |answer, pressures, _| {
            (answer == 12 && are_wrong(pressures)).then_some(21)
        })
    }),
    ("21 before 17", |sheet, pressures, list| {
        answered(sheet, pressures, list, |answer, pressures, _| {
            (answer == 17 && are_wrong(pressures)).then_some(21)
        })
    }),
    ("22 before 12", |sheet, pressures, list| {
        answered(sheet, pressures, list, |answer, pressures, length| {
            (answer == 12 && length != pressures.len()).then_some(22)
        })
    }),
    ("14 for 22", |sheet, pressures, list| {
        answered(sheet, pressures, list, |answer, _, _| (answer == 22).then_some(14))
    }),
    ("13 for squat bins before 21", |sheet, pressures, list| {
        match (depths_for(sheet, pressures, &mut list.to_vec()), parse(sheet)) {
            (0 | 21 | 22, Ok(silo)) if is_squat(&silo) => 13,
            _ => depths_for(sheet, pressures, list),
        }
    }),
    ("a refused sheet's depths cleared", |sheet, pressures, list| {
        clearing(sheet, pressures, list, &[1, 2, 3, 4, 5, 6, 7, 8, 9, 10, 11, 17, 12])
    }),
    ("the depths cleared at 20", |sheet, pressures, list| clearing(sheet, pressures, list, &[20])),
    ("the depths cleared at 21", |sheet, pressures, list| clearing(sheet, pressures, list, &[21])),
    ("the depths cleared at 22", |sheet, pressures, list| clearing(sheet, pressures, list, &[22])),
    ("depths written down to where the pressures fall", |sheet, pressures, list| {
        let answer = depths_for(sheet, pressures, list);
        if answer == 21 && list.len() == pressures.len() {
            let rising = pressures.windows(2).take_while(|pair| pair[0] <= pair[1]).count() + 1;
            let depths = pressures.iter().take(rising).map(|pressure| depth_for(sheet, *pressure));
            list.iter_mut().zip(depths).for_each(|(number, depth)| *number = depth as u32);
        }
        answer
    }),
];
