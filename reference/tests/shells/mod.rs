//! Broken shell patch calls: other cosines, roundings, signs, pressures and forces; depths, lists and orders of refusals read otherwise; memory
//! that must not be written to.

use crate::{answers_of, down, is_squat, without_headroom};
use reference::answers::{P_HE, P_HF, P_P};
use reference::calls::{Library, UNTOUCHED_SIGNED};
use reference::cosine::{BILLION, COSINES, TABLE};
use reference::formulas::{self, patch_force};
use reference::fraction::{fraction, whole, Fraction};
use reference::linked::Linked;
use reference::sheet::{parse, records, Silo};
use reference::shell::{folded, reply, LENGTH};
use std::ops::Range;

pub type Shell = fn(&[u8], u32, &mut [i32]) -> u32;

/// The library's own.
pub fn shell_patch(sheet: &[u8], depth: u32, list: &mut [i32]) -> u32 {
    // SAFETY: each pointer is a slice's own.
    unsafe { Linked.shell_patch(sheet, depth, list) }
}

/// The library's number for a load at that depth.
fn number_at(silo: &Silo, depth: u64, load: usize) -> u64 {
    answers_of(&Silo { depths: vec![depth], ..silo.clone() }).rows[0][load].into()
}

fn p_p(silo: &Silo, depth: u64) -> u64 {
    number_at(silo, depth, P_P)
}

/// The library's answer, and its reply changed where it succeeds.
fn replied(sheet: &[u8], depth: u32, list: &mut [i32], change: impl Fn(&Silo, &mut [i32])) -> u32 {
    let answer = shell_patch(sheet, depth, list);
    if let (0, Ok(silo)) = (answer, parse(sheet)) {
        change(&silo, list);
    }
    answer
}

/// The whole reply made here, over another p_p.
fn over(sheet: &[u8], depth: u32, list: &mut [i32], other: fn(&Silo, u64) -> u64) -> u32 {
    replied(sheet, depth, list, |silo, list| {
        let made = reply(silo, other(silo, depth.into()));
        list.iter_mut().zip(made).for_each(|(number, made)| *number = made as i32);
    })
}

/// The reply as it is due, made here: the stand-ins with other numbers change nothing else, or this would be found.
pub const SAME: Shell = |sheet, depth, list| over(sheet, depth, list, p_p);

/// The pressures made otherwise, each by p_p and its degree.
fn pressures(
    sheet: &[u8],
    depth: u32,
    list: &mut [i32],
    pressure: impl Fn(u64, usize) -> i32,
) -> u32 {
    replied(sheet, depth, list, |silo, list| {
        let p_p = p_p(silo, depth.into());
        list[..LENGTH - 1]
            .iter_mut()
            .enumerate()
            .for_each(|(i, number)| *number = pressure(p_p, i));
    })
}

const INWARD: Range<usize> = 91..270;

fn signed(size: u64, degree: usize) -> i32 {
    size as i32 * if INWARD.contains(&degree) { -1 } else { 1 }
}

/// p_p times an entry of the table, in billionths.
fn billionths(p_p: u64, degree: usize) -> u64 {
    p_p * TABLE[folded(degree as u64)]
}

/// Other entries of the table, by the angle from 0 to 90.
fn entries(sheet: &[u8], depth: u32, list: &mut [i32], entry: fn(usize) -> u64) -> u32 {
    let table: Vec<u64> = (0..=90).map(entry).collect();
    pressures(sheet, depth, list, |p_p, degree| {
        signed((p_p * table[folded(degree as u64)]).div_ceil(BILLION), degree)
    })
}

/// Entries that the rule leaves no choice of.
const EXACT: [usize; 3] = [0, 60, 90];

/// The force made otherwise, by p_p.
fn forces(sheet: &[u8], depth: u32, list: &mut [i32], force: fn(&Silo, u64) -> u64) -> u32 {
    replied(sheet, depth, list, |silo, list| {
        list[LENGTH - 1] = force(silo, p_p(silo, depth.into())) as i32;
    })
}

/// The force with another number for π.
fn force_with(silo: &Silo, p_p: u64, pi: Fraction) -> u64 {
    patch_force(silo, p_p).times(&fraction(113, 355)).times(&pi).up()
}

/// Wrong numbers.
pub const REPLIES: &[(&str, Shell)] = &[
    ("cosines rounded to the nearest billionth", |sheet, depth, list| {
        entries(sheet, depth, list, |degree| {
            let half_up = COSINES[degree].low.times(&whole(BILLION)).plus(&fraction(1, 2));
            TABLE[degree] - u64::from(half_up < whole(TABLE[degree]))
        })
    }),
    ("cosines rounded down", |sheet, depth, list| {
        entries(sheet, depth, list, |degree| TABLE[degree] - u64::from(!EXACT.contains(&degree)))
    }),
    ("cosines two billionths above", |sheet, depth, list| {
        entries(sheet, depth, list, |degree| {
            TABLE[degree] + 2 * u64::from(!EXACT.contains(&degree))
        })
    }),
    ("cosines in millionths", |sheet, depth, list| {
        entries(sheet, depth, list, |degree| TABLE[degree].div_ceil(1_000) * 1_000)
    }),
    ("a billionth more at 60 degrees", |sheet, depth, list| {
        entries(sheet, depth, list, |degree| TABLE[degree] + u64::from(degree == 60))
    }),
    ("a billionth at 90 degrees", |sheet, depth, list| {
        entries(sheet, depth, list, |degree| TABLE[degree].max(1))
    }),
    ("sizes rounded to the nearest", |sheet, depth, list| {
        pressures(sheet, depth, list, |p_p, degree| {
            signed((billionths(p_p, degree) + BILLION / 2) / BILLION, degree)
        })
    }),
    ("sizes rounded toward zero", |sheet, depth, list| {
        pressures(sheet, depth, list, |p_p, degree| {
            signed(billionths(p_p, degree) / BILLION, degree)
        })
    }),
    ("sizes rounded toward zero where negative", |sheet, depth, list| {
        pressures(sheet, depth, list, |p_p, degree| match billionths(p_p, degree) {
            size if INWARD.contains(&degree) => signed(size / BILLION, degree),
            size => signed(size.div_ceil(BILLION), degree),
        })
    }),
    ("no sign", |sheet, depth, list| {
        replied(sheet, depth, list, |_, list| list.iter_mut().for_each(|n| *n = n.abs()))
    }),
    ("every sign exchanged", |sheet, depth, list| {
        replied(sheet, depth, list, |_, list| list[..360].iter_mut().for_each(|n| *n = -*n))
    }),
    ("the third quadrant outward", |sheet, depth, list| {
        replied(sheet, depth, list, |_, list| list[181..270].iter_mut().for_each(|n| *n = -*n))
    }),
    ("180 degrees outward", |sheet, depth, list| {
        replied(sheet, depth, list, |_, list| list[180] = -list[180])
    }),
    ("the sine", |sheet, depth, list| {
        replied(sheet, depth, list, |_, list| list[..360].rotate_right(90))
    }),
    ("degrees from 1 to 360", |sheet, depth, list| {
        replied(sheet, depth, list, |_, list| list[..360].rotate_left(1))
    }),
    ("angles modulo 90", |sheet, depth, list| {
        pressures(sheet, depth, list, |p_p, degree| {
            signed(billionths(p_p, degree % 90).div_ceil(BILLION), degree)
        })
    }),
    ("the force first", |sheet, depth, list| {
        replied(sheet, depth, list, |_, list| list.rotate_right(1))
    }),
    ("p_he for p_p", |sheet, depth, list| {
        over(sheet, depth, list, |silo, depth| number_at(silo, depth, P_HE))
    }),
    ("a patch over p_hf", |sheet, depth, list| {
        over(sheet, depth, list, |silo, depth| {
            whole(number_at(silo, depth, P_HF)).times(&formulas::patch(silo)).up()
        })
    }),
    ("p_p one more", |sheet, depth, list| {
        over(sheet, depth, list, |silo, depth| match p_p(silo, depth) {
            0 => 0,
            p_p => p_p + 1,
        })
    }),
    ("a patch from e_i alone", |sheet, depth, list| {
        over(sheet, depth, list, |silo, depth| p_p(&Silo { e_o: 0, ..silo.clone() }, depth))
    }),
    ("pressures over p_p before its rounding", |sheet, depth, list| {
        replied(sheet, depth, list, |silo, list| {
            let patch = whole(number_at(silo, depth.into(), P_HE)).times(&formulas::patch(silo));
            for (degree, number) in list[..360].iter_mut().enumerate() {
                let cosine = fraction(TABLE[folded(degree as u64)], BILLION);
                *number = signed(patch.times(&cosine).up(), degree);
            }
        })
    }),
    ("a patch by 135 for a blank C0", |sheet, depth, list| {
        over(sheet, depth, list, |silo, depth| match silo.factor {
            0 => p_p(&Silo { factor: 135, ..silo.clone() }, depth),
            _ => p_p(silo, depth),
        })
    }),
    ("a headroom that is ignored for the given depth", |sheet, depth, list| {
        over(sheet, depth, list, |silo, depth| p_p(silo, (depth + silo.g()).min(silo.foot())))
    }),
    ("a patch without headroom", |sheet, depth, list| {
        over(sheet, depth, list, |silo, depth| match without_headroom(silo) {
            level if parse(&level.sheet()).is_ok() => p_p(&level, depth),
            _ => p_p(silo, depth),
        })
    }),
    ("the first listed depth for the given one", |sheet, depth, list| {
        over(sheet, depth, list, |silo, _| p_p(silo, silo.depths[0]))
    }),
    ("V for the given depth", |sheet, depth, list| {
        over(sheet, depth, list, |silo, _| p_p(silo, silo.foot()))
    }),
    ("a force with 3.14 for π", |sheet, depth, list| {
        forces(sheet, depth, list, |silo, p_p| force_with(silo, p_p, fraction(314, 100)))
    }),
    ("a force with 3.1415926 for π", |sheet, depth, list| {
        forces(sheet, depth, list, |silo, p_p| {
            force_with(silo, p_p, fraction(31_415_926, 10_000_000))
        })
    }),
    ("a force with π itself", |sheet, depth, list| {
        forces(sheet, depth, list, |silo, p_p| {
            force_with(silo, p_p, fraction(3_141_592_653_589_793, 1_000_000_000_000_000))
        })
    }),
    ("a force with 355/113 rounded up to millionths", |sheet, depth, list| {
        forces(sheet, depth, list, |silo, p_p| {
            force_with(silo, p_p, fraction(3_141_593, 1_000_000))
        })
    }),
    ("a force rounded down", |sheet, depth, list| {
        forces(sheet, depth, list, |silo, p_p| down(&patch_force(silo, p_p)))
    }),
    ("a force rounded to the nearest", |sheet, depth, list| {
        forces(sheet, depth, list, |silo, p_p| down(&patch_force(silo, p_p).plus(&fraction(1, 2))))
    }),
    ("a force rounded up before 355/113 too", |sheet, depth, list| {
        forces(sheet, depth, list, |silo, p_p| {
            let pi = fraction(355, 113);
            whole(patch_force(silo, p_p).over(&pi).up()).times(&pi).up()
        })
    }),
    ("a force over p_p before its rounding", |sheet, depth, list| {
        replied(sheet, depth, list, |silo, list| {
            let p_he = whole(number_at(silo, depth.into(), P_HE));
            let force = patch_force(silo, 1).times(&p_he.times(&formulas::patch(silo)));
            list[LENGTH - 1] = force.up() as i32;
        })
    }),
    ("a force without the half", |sheet, depth, list| {
        forces(sheet, depth, list, |silo, p_p| patch_force(silo, 2 * p_p).up())
    }),
    ("a force for s = 0.2 m", |sheet, depth, list| {
        forces(sheet, depth, list, |silo, p_p| {
            patch_force(silo, p_p).over(&fraction(silo.d_c(), 1_000)).up()
        })
    }),
    ("a force for s = 0.2 of a d_c in whole metres", |sheet, depth, list| {
        forces(sheet, depth, list, |silo, p_p| {
            let metres = whole(silo.d_c().div_ceil(1_000));
            patch_force(silo, p_p).over(&fraction(silo.d_c(), 1_000)).times(&metres).up()
        })
    }),
    ("a force in kN", |sheet, depth, list| {
        forces(sheet, depth, list, |silo, p_p| patch_force(silo, p_p).over(&whole(1_000)).up())
    }),
    ("nothing written", |sheet, depth, list| shell_patch(sheet, depth, &mut list.to_vec())),
    ("no force written", |sheet, depth, list| {
        replied(sheet, depth, list, |_, list| list[LENGTH - 1] = UNTOUCHED_SIGNED)
    }),
];

/// A call, and what its sheet says where that can be read.
struct Call<'a> {
    sheet: &'a [u8],
    depth: u32,
    length: usize,
    silo: Silo,
}

impl Call<'_> {
    fn is_over(&self) -> bool {
        u64::from(self.depth) > self.silo.foot()
    }

    fn is_rectangle(&self) -> bool {
        self.silo.section.len() == 2
    }
}

/// The library's answer, or another one in its place.
fn answered(
    sheet: &[u8],
    depth: u32,
    list: &mut [i32],
    other: fn(u32, &Call) -> Option<u32>,
) -> u32 {
    let answer = shell_patch(sheet, depth, &mut list.to_vec());
    let call = records(sheet).map(|silo| Call { sheet, depth, length: list.len(), silo });
    match call.ok().and_then(|call| other(answer, &call)) {
        Some(other) => other,
        None => shell_patch(sheet, depth, list),
    }
}

/// The library's answer, with the given depth read as another one.
fn given(sheet: &[u8], depth: u32, list: &mut [i32], other: fn(u64, &Silo) -> u64) -> u32 {
    let other = records(sheet).map_or(depth, |silo| other(depth.into(), &silo) as u32);
    shell_patch(sheet, other, list)
}

/// The library's answer, for a rectangle of some kind that of a circle.
fn round(sheet: &[u8], depth: u32, list: &mut [i32], wrongly: fn(&Silo) -> bool) -> u32 {
    match parse(sheet) {
        Ok(silo) if silo.section.len() == 2 && wrongly(&silo) => {
            shell_patch(&Silo { section: vec![silo.d_c()], ..silo }.sheet(), depth, list)
        }
        _ => shell_patch(sheet, depth, list),
    }
}

/// The library's answer, and the list cleared at some refusals.
fn clearing(sheet: &[u8], depth: u32, list: &mut [i32], refusals: &[u32]) -> u32 {
    let answer = shell_patch(sheet, depth, list);
    if refusals.contains(&answer) {
        list.fill(0);
    }
    answer
}

/// Depths and lists read otherwise, and refusals in another order.
pub const CALLS: &[(&str, Shell)] = &[
    ("14 before 19", |sheet, depth, list| {
        answered(sheet, depth, list, |answer, call| {
            (answer == 19 && call.length != LENGTH).then_some(14)
        })
    }),
    ("14 before all", |sheet, depth, list| match list.len() {
        LENGTH => shell_patch(sheet, depth, list),
        _ => 14,
    }),
    ("19 before 12", |sheet, depth, list| {
        answered(sheet, depth, list, |answer, call| {
            (answer == 12 && call.is_rectangle()).then_some(19)
        })
    }),
    ("19 before 17", |sheet, depth, list| {
        answered(sheet, depth, list, |answer, call| {
            (answer == 17 && call.is_rectangle()).then_some(19)
        })
    }),
    ("19 before 11", |sheet, depth, list| {
        answered(sheet, depth, list, |answer, call| {
            (answer == 11 && call.is_rectangle()).then_some(19)
        })
    }),
    ("19 before the values", |sheet, depth, list| {
        answered(sheet, depth, list, |answer, call| {
            ((6..11).contains(&answer) && call.is_rectangle()).then_some(19)
        })
    }),
    ("14 before 20", |sheet, depth, list| {
        answered(sheet, depth, list, |answer, call| {
            (answer == 20 && call.length != LENGTH).then_some(14)
        })
    }),
    ("the given depth judged before 20", |sheet, depth, list| {
        answered(sheet, depth, list, |answer, call| (answer == 20 && call.is_over()).then_some(11))
    }),
    ("the given depth judged after 17 and 12", |sheet, depth, list| {
        answered(sheet, depth, list, |answer, call| match parse(call.sheet) {
            Err(refusal @ (17 | 12)) if answer == 11 => Some(refusal as u32),
            _ => None,
        })
    }),
    ("the given depth judged after 17", |sheet, depth, list| {
        answered(sheet, depth, list, |answer, call| {
            (answer == 11 && parse(call.sheet) == Err(17)).then_some(17)
        })
    }),
    ("the given depth judged after 19", |sheet, depth, list| {
        answered(sheet, depth, list, |answer, call| {
            (answer == 11 && parse(call.sheet).is_ok() && call.is_rectangle()).then_some(19)
        })
    }),
    ("the given depth judged after 14", |sheet, depth, list| {
        answered(sheet, depth, list, |answer, call| {
            let is_circle = parse(call.sheet).is_ok() && !call.is_rectangle();
            (answer == 11 && is_circle && call.length != LENGTH).then_some(14)
        })
    }),
    ("the given depth judged before the values", |sheet, depth, list| {
        answered(sheet, depth, list, |answer, call| {
            ((6..11).contains(&answer) && call.is_over()).then_some(11)
        })
    }),
    ("the given depth judged before the strakes", |sheet, depth, list| {
        answered(sheet, depth, list, |answer, call| (answer == 10 && call.is_over()).then_some(11))
    }),
    ("a given depth over V taken for V", |sheet, depth, list| {
        given(sheet, depth, list, |depth, silo| depth.min(silo.foot()))
    }),
    ("a given depth of V + 1 taken for V", |sheet, depth, list| {
        given(sheet, depth, list, |depth, silo| depth - u64::from(depth == silo.foot() + 1))
    }),
    ("a given depth over V by less than g taken for V", |sheet, depth, list| {
        given(sheet, depth, list, |depth, silo| match silo.foot() {
            foot if depth <= foot + silo.g() => depth.min(foot),
            _ => depth,
        })
    }),
    ("the given depth modulo 2^16", |sheet, depth, list| {
        given(sheet, depth, list, |depth, _| depth % 65_536)
    }),
    ("the given depth with a sign", |sheet, depth, list| {
        given(sheet, depth, list, |depth, _| (depth as i32).max(0) as u64)
    }),
    ("a given depth of V refused", |sheet, depth, list| {
        given(sheet, depth, list, |depth, silo| depth + u64::from(depth == silo.foot()))
    }),
    ("a given depth that is not listed refused", |sheet, depth, list| {
        given(sheet, depth, list, |depth, silo| match silo.depths.contains(&depth) {
            true => depth,
            false => u32::MAX.into(),
        })
    }),
    ("a given depth above the surface refused", |sheet, depth, list| {
        given(sheet, depth, list, |depth, silo| match depth < silo.g() {
            true => u32::MAX.into(),
            false => depth,
        })
    }),
    ("a square taken for a circle", |sheet, depth, list| {
        round(sheet, depth, list, |silo| silo.a() == silo.b())
    }),
    ("every rectangle taken for a circle", |sheet, depth, list| {
        round(sheet, depth, list, |_| true)
    }),
    ("13 for 19", |sheet, depth, list| {
        answered(sheet, depth, list, |answer, _| (answer == 19).then_some(13))
    }),
    ("13 for squat bins before 19", |sheet, depth, list| {
        answered(sheet, depth, list, |answer, call| {
            ([0, 14, 19].contains(&answer) && is_squat(&call.silo)).then_some(13)
        })
    }),
    ("longer lists accepted", |sheet, depth, list| {
        let length = list.len().min(LENGTH);
        shell_patch(sheet, depth, &mut list[..length])
    }),
    ("a list without the force accepted", |sheet, depth, list| {
        let mut longer = vec![0; if list.len() == LENGTH - 1 { LENGTH } else { list.len() }];
        let answer = shell_patch(sheet, depth, &mut longer);
        if answer == 0 {
            list.copy_from_slice(&longer[..list.len()]);
        }
        answer
    }),
    ("a list's length by its lowest byte", |sheet, depth, list| {
        let length = if list.len() % 256 == LENGTH % 256 { LENGTH } else { list.len() };
        shell_patch(sheet, depth, &mut list[..length])
    }),
    ("a list's length by its lowest two bytes", |sheet, depth, list| {
        let length = list.len() % 65_536;
        shell_patch(sheet, depth, &mut list[..length])
    }),
    ("a refused sheet's list cleared", |sheet, depth, list| {
        clearing(sheet, depth, list, &[1, 2, 3, 4, 5, 6, 7, 8, 9, 10, 17, 12])
    }),
    ("the list cleared at 11", |sheet, depth, list| clearing(sheet, depth, list, &[11])),
    ("the list cleared at 19", |sheet, depth, list| clearing(sheet, depth, list, &[19])),
    ("the list cleared at 14", |sheet, depth, list| clearing(sheet, depth, list, &[14])),
    ("the list cleared at 20", |sheet, depth, list| clearing(sheet, depth, list, &[20])),
];

/// What the call writes to besides: the sheet from its first byte on, or the list.
pub type WriteReply = fn(*mut u8, *mut [i32]);

/// Memory written to besides; canaries stand beside the sheet and the list.
pub const WRITES: &[(&str, WriteReply)] = &[
    ("one number past the reply list", |_, list| {
        // SAFETY: the first canary after the list.
        unsafe { list.cast::<i32>().add(list.len()).write(0) }
    }),
    ("one number before the reply list", |_, list| {
        // SAFETY: the last canary before the list.
        unsafe { list.cast::<i32>().sub(1).write(0) }
    }),
    ("the sheet's first byte by the shell patch call", |sheet, _| {
        // SAFETY: a byte of the sheet, or the canary after it where it is empty.
        unsafe { sheet.write(1) }
    }),
    ("a refused reply list's last number", |_, list| {
        // SAFETY: the list is lent whole, and no other reference to it is left.
        let last = unsafe { &mut *list }.last_mut();
        if let Some(last) = last.filter(|last| **last == UNTOUCHED_SIGNED) {
            *last = 0;
        }
    }),
];
