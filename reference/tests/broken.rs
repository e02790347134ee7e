//! Broken stand-ins for the library: the comparison has to find each of them in what the other tests compare.
//!
//! Each calls the library and changes what it leaves or answers: the worthless versions of document 01, its traps, single numbers and
//! limits one off, lists in another order, other discharge factors, a headroom or a blank factor that is read otherwise, rules in another
//! order, sides judged otherwise, pages of another layout, other patches round a shell, other depths for pressures, and memory that is
//! written to where it must not be.

mod depths;
mod pages;
mod shells;
mod sides;

use depths::{depth_for, depths_for, Depths};
use pages::{page, page_length, Pages, WritePage};
use reference::answers::{
    Answers, Order, Row, BOTTOM, COLUMNS, LOADS, P_HE, P_HF, P_P, P_VF, P_W, P_WE, P_WF, ROWS, Z,
};
use reference::calls::{Library, Outcome, UNTOUCHED};
use reference::compare::Comparison;
use reference::exponential::exponential;
use reference::formulas::{self, c0, slenderness, Discharge, HORIZONTAL};
use reference::fraction::{fraction, whole, Fraction, Real};
use reference::inputs::{sample, Random};
use reference::linked::Linked;
use reference::sheet::{measure, parse, records, Silo};
use reference::{limits, order, runs};
use shells::{shell_patch, Shell, WriteReply};
use sides::{shortened, Call, Rule, Sides};
use std::cmp::Ordering;

type Loads = fn(&[u8], &mut [u32]) -> u32;
type Length = fn(&[u8]) -> u64;
type Governing = fn(&[u32], &[u32]) -> u32;
type Write = fn(*mut u8, *mut [u32]);
type WriteLists = fn(*mut [u32], *mut [u32]);

/// The calls, one of them with another rule for the sides, and what they write to besides: the load call the sheet from its first byte on, or
/// the list; the page call likewise the sheet or the buffer, the shell patch call and the one for depths the sheet or the
/// list; this one and the governing call both their lists.
struct Broken {
    loads: Loads,
    answers_length: Length,
    pages: Pages,
    shell_patch: Shell,
    depths: Depths,
    governing: Governing,
    sides: Sides,
    write: Write,
    write_page: WritePage,
    write_reply: WriteReply,
    write_depths: Write,
    write_lists: WriteLists,
}

impl Library for Broken {
    unsafe fn loads(&self, sheet: *const [u8], answers: *mut [u32]) -> u32 {
        // SAFETY: both are lent whole and do not overlap, and the references end with the call.
        let (bytes, list) = unsafe { (&*sheet, &mut *answers) };
        let own = |bytes: &[u8]| (self.loads)(bytes, list);
        let answer = sides::answered(self.sides, Call::Loads, (bytes, 0), own);
        (self.write)(sheet.cast_mut().cast(), answers);
        answer
    }

    unsafe fn answers_length(&self, sheet: *const [u8]) -> u64 {
        // SAFETY: the sheet is lent whole, and nothing writes to it.
        let bytes = unsafe { &*sheet };
        sides::answered(self.sides, Call::AnswersLength, (bytes, 0), self.answers_length)
    }

    unsafe fn page_length(&self, sheet: *const [u8]) -> u64 {
        // SAFETY: the sheet is lent whole, and nothing writes to it.
        let bytes = unsafe { &*sheet };
        let own = |bytes: &[u8]| self.pages.length(bytes);
        sides::answered(self.sides, Call::PageLength, (bytes, 0), own)
    }

    unsafe fn page(&self, sheet: *const [u8], page: *mut [u8]) -> u32 {
        // SAFETY: both are lent whole and do not overlap, and the references end with the call.
        let (bytes, buffer) = unsafe { (&*sheet, &mut *page) };
        let own = |bytes: &[u8]| self.pages.page(bytes, buffer);
        let answer = sides::answered(self.sides, Call::Page, (bytes, 0), own);
        (self.write_page)(sheet.cast_mut().cast(), page);
        answer
    }

    unsafe fn shell_patch(&self, sheet: *const [u8], depth: u32, reply: *mut [i32]) -> u32 {
        // SAFETY: both are lent whole and do not overlap, and the references end with the call.
        let (bytes, list) = unsafe { (&*sheet, &mut *reply) };
        let own = |bytes: &[u8]| (self.shell_patch)(bytes, depth, list);
        let answer = sides::answered(self.sides, Call::ShellPatch, (bytes, depth.into()), own);
        (self.write_reply)(sheet.cast_mut().cast(), reply);
        answer
    }

    unsafe fn depth_for(&self, sheet: *const [u8], pressure: u32) -> u64 {
        // SAFETY: the sheet is lent whole, and nothing writes to it.
        let bytes = unsafe { &*sheet };
        let own = |bytes: &[u8]| self.depths.single(bytes, pressure);
        sides::answered(self.sides, Call::DepthFor, (bytes, 0), own)
    }

    unsafe fn depths_for(
        &self,
        sheet: *const [u8],
        pressures: *const [u32],
        depths: *mut [u32],
    ) -> u32 {
        // SAFETY: all three are lent whole and do not overlap, and the references end with the call.
        let (bytes, given, list) = unsafe { (&*sheet, &*pressures, &mut *depths) };
        let own = |bytes: &[u8]| self.depths.list(bytes, given, list);
        let answer = sides::answered(self.sides, Call::DepthsFor, (bytes, 0), own);
        (self.write_depths)(sheet.cast_mut().cast(), depths);
        (self.write_lists)(pressures.cast_mut(), depths);
        answer
    }

    unsafe fn catalogue(&self, row: u32, wall: u32, record: *mut [u8]) -> u32 {
        // SAFETY: the caller's own promise.
        unsafe { Linked.catalogue(row, wall, record) }
    }

    unsafe fn governing(&self, first: *const [u32], second: *const [u32]) -> u32 {
        // SAFETY: both are lent whole, and the references end with the call.
        let answer = unsafe { (self.governing)(&*first, &*second) };
        (self.write_lists)(first.cast_mut(), second.cast_mut());
        answer
    }
}

/// The library itself.
const WHOLE: Broken = Broken {
    loads,
    answers_length,
    pages: pages::WHOLE,
    shell_patch,
    depths: depths::WHOLE,
    governing,
    sides: None,
    write: |_, _| (),
    write_page: |_, _| (),
    write_reply: |_, _| (),
    write_depths: |_, _| (),
    write_lists: |_, _| (),
};

fn loads(sheet: &[u8], list: &mut [u32]) -> u32 {
    // SAFETY: each pointer is a slice's own.
    unsafe { Linked.loads(sheet, list) }
}

fn answers_length(sheet: &[u8]) -> u64 {
    // SAFETY: the pointer is a slice's own.
    unsafe { Linked.answers_length(sheet) }
}

fn governing(first: &[u32], second: &[u32]) -> u32 {
    // SAFETY: each pointer is a slice's own.
    unsafe { Linked.governing(first, second) }
}

/// The second list where it governs by another rule, of two that the library chooses from.
fn chosen(first: &[u32], second: &[u32], second_governs: bool) -> u32 {
    match governing(first, second) {
        0 => 0,
        _ => 1 + u32::from(second_governs),
    }
}

/// The library's answer, and its numbers put on the list otherwise where it succeeds.
fn listed(sheet: &[u8], list: &mut [u32], other: impl Fn(&Silo, Answers<u32>) -> Vec<u32>) -> u32 {
    let answer = loads(sheet, list);
    if let (0, Ok(silo)) = (answer, parse(sheet)) {
        let answers = Answers::read(COLUMNS, silo.depths.len(), list);
        list.copy_from_slice(&other(&silo, answers));
    }
    answer
}

/// The library's answer, and its numbers changed where it succeeds.
fn filled(sheet: &[u8], list: &mut [u32], change: impl Fn(&Silo, &mut Answers<u32>)) -> u32 {
    listed(sheet, list, |silo, mut answers| {
        change(silo, &mut answers);
        answers.list(COLUMNS)
    })
}

/// Each row below the surface changed.
fn each_row(silo: &Silo, answers: &mut Answers<u32>, change: impl Fn(&mut Row<u32>)) {
    let rows = answers.rows.iter_mut();
    rows.filter(|row| silo.load_depth(row[Z].into()) > 0).for_each(change);
}

/// A number times a factor, rounded up.
fn magnified(number: u32, factor: &Fraction) -> u32 {
    whole(number.into()).times(factor).up() as u32
}

/// p_he and p_p made from a row's p_hf.
fn put_discharge(silo: &Silo, row: &mut Row<u32>, c_h: &Fraction) {
    row[P_HE] = magnified(row[P_HF], c_h);
    row[P_P] = magnified(row[P_HE], &formulas::patch(silo));
}

/// A p_hf, with p_he and p_p made from it.
fn put_horizontal(silo: &Silo, row: &mut Row<u32>, p_hf: u32) {
    row[P_HF] = p_hf;
    put_discharge(silo, row, &Discharge::of(silo).c_h);
}

/// Strakes made from p_hf at their lower edges.
fn put_strakes(answers: &mut Answers<u32>, c_h: &Fraction, p_hf: Vec<u32>) {
    answers.strakes = p_hf.into_iter().map(|p_hf| magnified(p_hf, c_h)).collect();
}

/// p_hf at every depth as P times a bracket of q, rounded up, with all that is made from it.
fn put_bracket(silo: &Silo, answers: &mut Answers<u32>, bracket: fn(&Fraction) -> Fraction) {
    let p_hf = |depth: u64| {
        let q = formulas::q(silo, HORIZONTAL, depth);
        bracket(&q).times(&formulas::before_bracket(silo)[0]).up() as u32
    };
    each_row(silo, answers, |row| put_horizontal(silo, row, p_hf(row[Z].into())));
    let at_edges = silo.edges().into_iter().map(p_hf).collect();
    put_strakes(answers, &Discharge::of(silo).c_h, at_edges);
}

/// The library's list for a silo, of zeros where it is refused.
fn list_of(silo: &Silo) -> Vec<u32> {
    let mut list = vec![0; silo.answers_length()];
    loads(&silo.sheet(), &mut list);
    list
}

fn answers_of(silo: &Silo) -> Answers<u32> {
    Answers::read(COLUMNS, silo.depths.len(), &list_of(silo))
}

/// The library's p_hf at the lower edges, which a sheet of their depths lists.
fn edge_pressures(silo: &Silo) -> Vec<u32> {
    let at_edges = answers_of(&Silo { depths: silo.edges(), ..silo.clone() });
    at_edges.rows.iter().map(|row| row[P_HF]).collect()
}

fn is_squat(silo: &Silo) -> bool {
    2 * silo.height() < 3 * silo.d_c()
}

/// The library's answer, with all that discharge makes of its filling pressures made by other factors.
fn discharged(sheet: &[u8], list: &mut [u32], other: impl Fn(&Silo) -> Discharge) -> u32 {
    filled(sheet, list, |silo, answers| {
        let Discharge { c_h, c_w } = other(silo);
        each_row(silo, answers, |row| {
            put_discharge(silo, row, &c_h);
            row[P_WE] = magnified(row[P_WF], &c_w);
        });
        put_strakes(answers, &c_h, edge_pressures(silo));
    })
}

/// The same for squat bins alone.
fn discharged_squat(sheet: &[u8], list: &mut [u32], other: fn(&Silo) -> Discharge) -> u32 {
    let by_kind = |silo: &Silo| if is_squat(silo) { other(silo) } else { Discharge::of(silo) };
    discharged(sheet, list, by_kind)
}

/// Both factors as whole hundredths, by some rounding of their hundredths.
fn in_hundredths(silo: &Silo, rounding: fn(Fraction) -> u64) -> Discharge {
    let Discharge { c_h, c_w } = Discharge::of(silo);
    let rounded = |factor: Fraction| fraction(rounding(factor.times(&whole(100))), 100);
    Discharge { c_h: rounded(c_h), c_w: rounded(c_w) }
}

fn without_headroom(silo: &Silo) -> Silo {
    Silo { headroom: None, ..silo.clone() }
}

/// The library's list, with something in it as without headroom, where such a silo is accepted.
fn partly_level(
    sheet: &[u8],
    list: &mut [u32],
    put: impl Fn(&Silo, &mut Answers<u32>, &Silo),
) -> u32 {
    filled(sheet, list, |silo, answers| {
        let level = without_headroom(silo);
        if parse(&level.sheet()).is_ok() {
            put(silo, answers, &level);
        }
    })
}

/// C_h with a C0 of 135.
fn soft(silo: &Silo) -> Fraction {
    Discharge::of(&Silo { factor: 135, ..silo.clone() }).c_h
}

/// The library's list, of a sheet with a blank C0 changed.
fn filled_blank(sheet: &[u8], list: &mut [u32], change: fn(&Silo, &mut Answers<u32>)) -> u32 {
    filled(sheet, list, |silo, answers| {
        if silo.factor == 0 {
            change(silo, answers);
        }
    })
}

/// The library's list, with a C0 of some kind read as another.
fn read_as(sheet: &[u8], list: &mut [u32], factor: u64, read: fn(&Silo) -> bool) -> u32 {
    match parse(sheet) {
        Ok(silo) if read(&silo) => loads(&Silo { factor, ..silo }.sheet(), list),
        _ => loads(sheet, list),
    }
}

/// P_w one more, where it stays inside its band.
fn put_greater_line(silo: &Silo, answers: &mut Answers<u32>) {
    each_row(silo, answers, |row| {
        let line = formulas::filling(silo, row[Z].into()).line;
        let more = line.plus(&Real::exactly(whole(1)));
        row[P_W] += u32::from(!more.is_at_most(&whole(row[P_W].into())));
    });
}

/// z as far below the surface as it is above it, where the wall is so high.
fn mirrored(silo: &Silo, z: u64) -> u64 {
    let other = 2 * silo.g() - z.min(silo.g());
    if z < silo.g() && other <= silo.foot() {
        other
    } else {
        z
    }
}

/// 1 - e^-q, from above.
fn bracket(q: &Fraction) -> Fraction {
    Real::exactly(whole(1)).minus(&exponential(q)).high
}

/// The greatest whole number not above a fraction.
fn down(exact: &Fraction) -> u64 {
    exact.up() - u64::from(whole(exact.up()) != *exact)
}

/// The library's answer, or a refusal of accepted silos of some kind.
fn refusing(sheet: &[u8], list: &mut [u32], refusal: u32, wrongly: fn(&Silo) -> bool) -> u32 {
    match parse(sheet) {
        Ok(silo) if wrongly(&silo) && list.len() == silo.answers_length() => refusal,
        _ => loads(sheet, list),
    }
}

/// The library's answer, for an accepted sheet that of another silo.
fn instead(sheet: &[u8], list: &mut [u32], other: fn(Silo) -> Silo) -> u32 {
    match parse(sheet) {
        Ok(silo) => loads(&other(silo).sheet(), list),
        Err(_) => loads(sheet, list),
    }
}

/// The library's answer, for a refused sheet of some kind that of another sheet.
fn taken_for(sheet: &[u8], list: &mut [u32], other: fn(Silo) -> Option<Silo>) -> u32 {
    match (parse(sheet), records(sheet).ok().and_then(other)) {
        (Err(_), Some(silo)) => loads(&silo.sheet(), list),
        _ => loads(sheet, list),
    }
}

/// The sheet without what is behind its sixth record.
fn without_rest(sheet: &[u8]) -> &[u8] {
    let mut starts = (0..sheet.len()).map(|end| &sheet[..end]);
    starts.find(|start| records(start).is_ok()).unwrap_or(sheet)
}

/// The library's answer, or one to bytes behind the sixth record.
fn behind_sixth(sheet: &[u8], list: &mut [u32], other: fn(&[u8]) -> Option<u32>) -> u32 {
    let rest = &sheet[without_rest(sheet).len()..];
    other(rest).unwrap_or_else(|| loads(sheet, list))
}

/// Wrong answer lists.
const LISTS: &[(&str, Loads)] = &[
    ("the deep limit at every depth", |sheet, list| {
        filled(sheet, list, |silo, answers| put_bracket(silo, answers, |_| whole(1)))
    }),
    ("one fixed table", |sheet, list| {
        listed(sheet, list, |silo, _| vec![10_000; silo.answers_length()])
    }),
    ("refuses every sheet", |_, _| 2),
    ("accepts and writes nothing", |sheet, list| loads(sheet, &mut list.to_vec())),
    ("the first row repeated", |sheet, list| {
        filled(sheet, list, |silo, answers| {
            let first = answers.rows[0];
            each_row(silo, answers, |row| row[P_HF..].copy_from_slice(&first[P_HF..]));
        })
    }),
    ("one friction for all loads", |sheet, list| {
        filled(sheet, list, |silo, answers| {
            let weight = &formulas::before_bracket(silo)[2];
            each_row(silo, answers, |row| {
                let q = formulas::q(silo, HORIZONTAL, row[Z].into());
                row[P_WF] = bracket(&q).times(weight).up() as u32;
                row[P_WE] = magnified(row[P_WF], &Discharge::of(silo).c_w);
            });
        })
    }),
    ("q rounded down to 2^-33", |sheet, list| {
        filled(sheet, list, |silo, answers| {
            put_bracket(silo, answers, |q| {
                bracket(&fraction(down(&q.times(&whole(1 << 33))), 1 << 33))
            });
        })
    }),
    ("e^-q too high by 2^-40", |sheet, list| {
        filled(sheet, list, |silo, answers| {
            put_bracket(silo, answers, |q| bracket(q).minus(&fraction(1, 1 << 40)));
        })
    }),
    ("P_w added up from rounded discharge loads", |sheet, list| {
        filled(sheet, list, |_, answers| {
            let (mut above, mut sum) = (0, 0);
            for row in &mut answers.rows {
                sum += u64::from(row[Z] - above) * u64::from(row[P_WE]) / 1_000;
                (above, row[P_W]) = (row[Z], sum as u32);
            }
        })
    }),
    ("α from the vertical", |sheet, list| {
        filled(sheet, list, |silo, answers| {
            let turned = Silo { hopper_height: silo.run, run: silo.hopper_height, ..silo.clone() };
            let vertical = formulas::filling(silo, silo.foot()).vertical;
            for k in 0..if silo.run == 0 { 0 } else { 5 } {
                let share = formulas::hopper_share(&turned, k);
                let normal = formulas::n3(&turned).plus(&vertical.times(&share)).high.up();
                answers.bottom[k as usize] = normal as u32;
            }
        })
    }),
    ("p_he rounded down", |sheet, list| {
        filled(sheet, list, |silo, answers| {
            each_row(silo, answers, |row| {
                row[P_HE] = down(&whole(row[P_HF].into()).times(&Discharge::of(silo).c_h)) as u32;
            });
        })
    }),
    ("a patch load from e_i alone", |sheet, list| {
        filled(sheet, list, |silo, answers| {
            let inner = Silo { e_o: 0, ..silo.clone() };
            each_row(silo, answers, |row| put_horizontal(&inner, row, row[P_HF]));
        })
    }),
    ("strakes at their upper edges", |sheet, list| {
        filled(sheet, list, |_, answers| {
            answers.strakes.rotate_right(1);
            answers.strakes[0] = 0;
        })
    }),
    ("strakes at edges without the first strake", |sheet, list| {
        filled(sheet, list, |silo, answers| {
            let others = Silo { strakes: silo.strakes[1..].to_vec(), ..silo.clone() };
            let at_edges = [vec![0], edge_pressures(&others)].concat();
            put_strakes(answers, &Discharge::of(silo).c_h, at_edges);
        })
    }),
    ("p_hf one more at odd depths that are no lower edge", |sheet, list| {
        filled(sheet, list, |silo, answers| {
            each_row(silo, answers, |row| {
                let raised = row[Z] % 2 == 1 && !silo.edges().contains(&row[Z].into());
                put_horizontal(silo, row, row[P_HF] + u32::from(raised));
            });
        })
    }),
    ("p_hf one more where two depths are listed", |sheet, list| {
        filled(sheet, list, |silo, answers| {
            if silo.depths.len() == 2 {
                each_row(silo, answers, |row| put_horizontal(silo, row, row[P_HF] + 1));
            }
        })
    }),
];

/// The library's numbers, the loads of some lists in another order.
fn ordered(sheet: &[u8], list: &mut [u32], order: Order, some: fn(&Silo) -> bool) -> u32 {
    listed(sheet, list, |silo, answers| answers.list(if some(silo) { order } else { COLUMNS }))
}

/// The library's list, the columns of some loads a depth further down below the surface, cyclically: the last number comes first.
fn shifted(sheet: &[u8], list: &mut [u32], loads: &[usize]) -> u32 {
    filled(sheet, list, |silo, answers| {
        let above = silo.depths.iter().filter(|z| silo.load_depth(**z) == 0).count();
        let mut others = answers.rows.clone();
        let below = &mut others[above..];
        below.rotate_right(below.len().min(1));
        for (row, other) in answers.rows.iter_mut().zip(others) {
            loads.iter().for_each(|load| row[*load] = other[*load]);
        }
    })
}

/// The library's list, two columns exchanged.
fn exchanged(sheet: &[u8], list: &mut [u32], one: usize, other: usize) -> u32 {
    filled(sheet, list, |_, answers| answers.rows.iter_mut().for_each(|row| row.swap(one, other)))
}

/// Lists in another order. A list of one depth is the same in rows and in columns.
const ORDERS: &[(&str, Loads)] = &[
    ("the row order kept", |sheet, list| ordered(sheet, list, ROWS, |_| true)),
    ("the row order kept for two depths", |sheet, list| {
        ordered(sheet, list, ROWS, |silo| silo.depths.len() == 2)
    }),
    ("the row order kept for 200 depths", |sheet, list| {
        ordered(sheet, list, ROWS, |silo| silo.depths.len() == 200)
    }),
    ("the row order kept under a headroom", |sheet, list| {
        ordered(sheet, list, ROWS, |silo| silo.g() > 0)
    }),
    ("columns from the foot up", |sheet, list| {
        ordered(sheet, list, |depths, load, i| COLUMNS(depths, load, depths - 1 - i), |_| true)
    }),
    ("p_hf and p_vf exchanged", |sheet, list| exchanged(sheet, list, P_HF, P_VF)),
    ("p_wf and p_we exchanged", |sheet, list| exchanged(sheet, list, P_WF, P_WE)),
    ("p_hf and p_he exchanged", |sheet, list| exchanged(sheet, list, P_HF, P_HE)),
    ("p_we a depth further down", |sheet, list| shifted(sheet, list, &[P_WE])),
    ("P_w a depth further down", |sheet, list| shifted(sheet, list, &[P_W])),
    ("p_hf a depth further down, with p_he and p_p", |sheet, list| {
        shifted(sheet, list, &[P_HF, P_HE, P_P])
    }),
    ("P_n and P_t in turns", |sheet, list| {
        filled(sheet, list, |_, answers| {
            let (normal, traction) = answers.bottom.split_at(5);
            answers.bottom = normal.iter().zip(traction).flat_map(|(n, t)| [*n, *t]).collect();
        })
    }),
    ("strakes before the bottom", |sheet, list| {
        listed(sheet, list, |_, answers| {
            let mut list = answers.list(COLUMNS);
            list[LOADS.len() * answers.rows.len()..].rotate_left(BOTTOM);
            list
        })
    }),
    ("the bottom before the columns", |sheet, list| {
        listed(sheet, list, |_, answers| {
            let mut list = answers.list(COLUMNS);
            list[..LOADS.len() * answers.rows.len() + BOTTOM].rotate_right(BOTTOM);
            list
        })
    }),
];

/// Wrong discharge factors. Limits on the other side are not among them, h ≥ d_c for h > d_c and 2h > 3·d_c for 2h ≥ 3·d_c: the factors of
/// both sides are equal there, and no number changes.
const FACTORS: &[(&str, Loads)] = &[
    ("slender factors for every bin", |sheet, list| {
        discharged(sheet, list, |silo| Discharge::slender(&c0(silo)))
    }),
    ("squat factors for every bin", |sheet, list| {
        discharged(sheet, list, |silo| Discharge::squat(&c0(silo), &slenderness(silo)))
    }),
    ("1 for every squat bin", |sheet, list| {
        discharged_squat(sheet, list, |_| Discharge { c_h: whole(1), c_w: whole(1) })
    }),
    ("h and d_c exchanged", |sheet, list| {
        discharged(sheet, list, |silo| Discharge::at(&c0(silo), &whole(1).over(&slenderness(silo))))
    }),
    ("h without H", |sheet, list| {
        discharged(sheet, list, |silo| Discharge::at(&c0(silo), &fraction(silo.foot(), silo.d_c())))
    }),
    ("side a for d_c", |sheet, list| {
        discharged(sheet, list, |silo| Discharge::at(&c0(silo), &fraction(silo.height(), silo.a())))
    }),
    ("slender from 1.5·d_c without its half millimetre", |sheet, list| {
        discharged_squat(sheet, list, |silo| match silo.height() {
            h if h >= 3 * silo.d_c() / 2 => Discharge::slender(&c0(silo)),
            _ => Discharge::of(silo),
        })
    }),
    ("h/d_c as a whole number", |sheet, list| {
        discharged(sheet, list, |silo| Discharge::at(&c0(silo), &whole(down(&slenderness(silo)))))
    }),
    ("factors rounded up to hundredths", |sheet, list| {
        discharged(sheet, list, |silo| in_hundredths(silo, |hundredths| hundredths.up()))
    }),
    ("factors rounded to the nearest hundredth", |sheet, list| {
        discharged(sheet, list, |silo| {
            in_hundredths(silo, |hundredths| down(&hundredths.plus(&fraction(1, 2))))
        })
    }),
    ("C_h without its 2", |sheet, list| {
        discharged_squat(sheet, list, |silo| {
            let Discharge { c_h, c_w } = Discharge::of(silo);
            Discharge { c_h: c_h.plus(&whole(1)).over(&whole(2)), c_w }
        })
    }),
    ("C_w of 1.1 for squat bins", |sheet, list| {
        discharged(sheet, list, |silo| Discharge { c_w: fraction(11, 10), ..Discharge::of(silo) })
    }),
    ("a blank C0 as 1 in squat bins", |sheet, list| {
        discharged_squat(sheet, list, |silo| match silo.factor {
            0 => Discharge::squat(&whole(1), &slenderness(silo)),
            _ => Discharge::of(silo),
        })
    }),
    ("strakes of squat bins by C0", |sheet, list| {
        filled(sheet, list, |silo, answers| {
            put_strakes(answers, &c0(silo), edge_pressures(silo));
        })
    }),
    ("the patch reduced by 5.33 and 5.36", |sheet, list| {
        filled(sheet, list, |silo, answers| {
            if is_squat(silo) {
                let share = slenderness(silo).minus(&whole(1)).times(&whole(2));
                let patch = formulas::patch(silo).times(&share);
                each_row(silo, answers, |row| row[P_P] = magnified(row[P_HE], &patch));
            }
        })
    }),
    ("p_hf one more in squat bins", |sheet, list| {
        filled(sheet, list, |silo, answers| {
            if is_squat(silo) {
                each_row(silo, answers, |row| put_horizontal(silo, row, row[P_HF] + 1));
                let at_edges = edge_pressures(silo).iter().map(|p_hf| p_hf + 1).collect();
                put_strakes(answers, &Discharge::of(silo).c_h, at_edges);
            }
        })
    }),
];

/// A headroom read otherwise.
const HEADROOMS: &[(&str, Loads)] = &[
    ("a headroom that is ignored", |sheet, list| {
        instead(sheet, list, |silo| without_headroom(&silo))
    }),
    ("g modulo 2^16", |sheet, list| {
        instead(sheet, list, |silo| Silo { headroom: silo.headroom.map(|g| g % 65_536), ..silo })
    }),
    ("g one less", |sheet, list| {
        instead(sheet, list, |silo| Silo { headroom: silo.headroom.map(|g| g.max(1) - 1), ..silo })
    }),
    ("z - g in place of z in the list", |sheet, list| {
        filled(sheet, list, |silo, answers| {
            for row in &mut answers.rows {
                row[Z] = silo.load_depth(row[Z].into()) as u32;
            }
        })
    }),
    ("h without g in the factors", |sheet, list| {
        discharged(sheet, list, |silo| {
            Discharge::at(&c0(silo), &slenderness(&without_headroom(silo)))
        })
    }),
    ("a floor at V", |sheet, list| {
        partly_level(sheet, list, |silo, answers, level| {
            if silo.run == 0 {
                answers.bottom = answers_of(level).bottom;
            }
        })
    }),
    ("a hopper at V", |sheet, list| {
        partly_level(sheet, list, |silo, answers, level| {
            if silo.run > 0 {
                answers.bottom = answers_of(level).bottom;
            }
        })
    }),
    ("strakes at their edges without headroom", |sheet, list| {
        partly_level(sheet, list, |silo, answers, level| {
            put_strakes(answers, &Discharge::of(silo).c_h, edge_pressures(level));
        })
    }),
    ("P_w without headroom", |sheet, list| {
        partly_level(sheet, list, |_, answers, level| {
            let level = answers_of(level).rows;
            answers.rows.iter_mut().zip(level).for_each(|(row, level)| row[P_W] = level[P_W]);
        })
    }),
    ("P_w by z less z0 times the bracket of its load depth", |sheet, list| {
        filled(sheet, list, |silo, answers| {
            let weight = formulas::before_bracket(silo)[2].over(&whole(1_000));
            let above = magnified(silo.g() as u32, &weight);
            each_row(silo, answers, |row| row[P_W] = row[P_W].saturating_add(above));
        })
    }),
    ("P_w one more under a headroom, inside its band", |sheet, list| {
        filled(sheet, list, |silo, answers| {
            if silo.g() > 0 {
                put_greater_line(silo, answers);
            }
        })
    }),
    ("load depths as |z - g|", |sheet, list| {
        filled(sheet, list, |silo, answers| {
            let row_at = |z| answers_of(&Silo { depths: vec![z], ..silo.clone() }).rows[0];
            for row in &mut answers.rows {
                let other = row_at(mirrored(silo, row[Z].into()));
                row[P_HF..].copy_from_slice(&other[P_HF..]);
            }
            let at_edges = silo.edges().into_iter().map(|z| row_at(mirrored(silo, z))[P_HF]);
            put_strakes(answers, &Discharge::of(silo).c_h, at_edges.collect());
        })
    }),
];

/// A blank factor read otherwise, or another one for blank.
const BLANKS: &[(&str, Loads)] = &[
    ("a blank C0 as 135", |sheet, list| read_as(sheet, list, 135, |silo| silo.factor == 0)),
    ("a blank C0 as 154", |sheet, list| read_as(sheet, list, 154, |silo| silo.factor == 0)),
    ("a blank C0 as 156", |sheet, list| read_as(sheet, list, 156, |silo| silo.factor == 0)),
    ("a blank C0 as 135 in squat bins", |sheet, list| {
        read_as(sheet, list, 135, |silo| silo.factor == 0 && is_squat(silo))
    }),
    ("a blank C0 as 135 under a headroom", |sheet, list| {
        read_as(sheet, list, 135, |silo| silo.factor == 0 && silo.headroom.is_some())
    }),
    ("a C0 of 100 as blank", |sheet, list| read_as(sheet, list, 0, |silo| silo.factor == 100)),
    ("a C0 of 135 as blank", |sheet, list| read_as(sheet, list, 0, |silo| silo.factor == 135)),
    ("every C0 below 155 as blank", |sheet, list| {
        read_as(sheet, list, 0, |silo| silo.factor < 155)
    }),
    ("a C0 from 1 to 99 as blank", |sheet, list| {
        taken_for(sheet, list, |silo| (silo.factor < 100).then_some(Silo { factor: 0, ..silo }))
    }),
    ("a C0 of 99 as blank", |sheet, list| {
        taken_for(sheet, list, |silo| (silo.factor == 99).then_some(Silo { factor: 0, ..silo }))
    }),
    ("7 for a blank C0", |sheet, list| refusing(sheet, list, 7, |silo| silo.factor == 0)),
    ("7 for a blank C0 before a later refusal", |sheet, list| {
        match (loads(sheet, list), records(sheet)) {
            (8..=12, Ok(silo)) if silo.factor == 0 => 7,
            (answer, _) => answer,
        }
    }),
    ("C_h of 1.55 for a blank C0 in squat bins", |sheet, list| {
        discharged_squat(sheet, list, |silo| match silo.factor {
            0 => Discharge { c_h: c0(silo), ..Discharge::of(silo) },
            _ => Discharge::of(silo),
        })
    }),
    ("p_we by 1.55 for a blank C0", |sheet, list| {
        filled_blank(sheet, list, |silo, answers| {
            each_row(silo, answers, |row| row[P_WE] = magnified(row[P_WF], &c0(silo)));
        })
    }),
    ("strakes by 135 for a blank C0", |sheet, list| {
        filled_blank(sheet, list, |silo, answers| {
            put_strakes(answers, &soft(silo), edge_pressures(silo));
        })
    }),
    ("the patch over p_he by 135 for a blank C0", |sheet, list| {
        filled_blank(sheet, list, |silo, answers| {
            each_row(silo, answers, |row| {
                row[P_P] = magnified(magnified(row[P_HF], &soft(silo)), &formulas::patch(silo));
            });
        })
    }),
    ("P_w one more for a blank C0, inside its band", |sheet, list| {
        filled_blank(sheet, list, put_greater_line)
    }),
];

/// Limits one off, and rules in another order.
const REFUSALS: &[(&str, Loads)] = &[
    ("refuses d = 500", |sheet, list| refusing(sheet, list, 6, |silo| silo.section == [500])),
    ("refuses depth V", |sheet, list| {
        refusing(sheet, list, 11, |silo| silo.depths.last() == Some(&silo.foot()))
    }),
    ("refuses 4e = d_c", |sheet, list| refusing(sheet, list, 8, |silo| 4 * silo.e_o == silo.d_c())),
    ("refuses 200 depths", |sheet, list| refusing(sheet, list, 4, |silo| silo.depths.len() == 200)),
    ("takes depth V + 1 for V", |sheet, list| {
        taken_for(sheet, list, |silo| {
            let foot = silo.foot();
            let (last, above) = silo.depths.split_last()?;
            let depths = [above, &[foot]].concat();
            (*last == foot + 1).then(|| Silo { depths, ..silo.clone() })
        })
    }),
    ("takes e for e modulo 2^30", |sheet, list| {
        taken_for(sheet, list, |silo| Some(Silo { e_i: silo.e_i % (1 << 30), ..silo }))
    }),
    ("accepts bytes left over behind 200 depths", |sheet, list| {
        let whole = if parse(sheet) == Err(5) { without_rest(sheet) } else { sheet };
        match records(whole) {
            Ok(silo) if silo.depths.len() == 200 => loads(whole, list),
            _ => loads(sheet, list),
        }
    }),
    ("judges the depths before the strakes", |sheet, list| {
        taken_for(sheet, list, |silo| {
            let wall = Silo { strakes: vec![3_000; 24], ..silo };
            (parse(&wall.sheet()) == Err(11)).then_some(wall)
        })
    }),
    ("judges the shape before the depths", |sheet, list| {
        taken_for(sheet, list, |silo| {
            let shape = Silo { depths: vec![0], ..silo };
            (parse(&shape.sheet()) == Err(12)).then_some(shape)
        })
    }),
    ("judges the headroom before the depths", |sheet, list| {
        match (loads(sheet, list), records(sheet)) {
            (11, Ok(silo)) if silo.g() >= silo.foot() => 17,
            (answer, _) => answer,
        }
    }),
    ("judges the shape before the headroom", |sheet, list| {
        match (loads(sheet, list), records(sheet)) {
            (17, Ok(silo)) if silo.height() >= 10 * silo.d_c() => 12,
            (answer, _) => answer,
        }
    }),
    ("judges the sides as soon as they are read", |sheet, list| {
        let rest = sample().sheet().split_off(8);
        match (loads(sheet, list), sheet.get(..12)) {
            (2..=5, Some(first)) if parse(&[first, &rest].concat()) == Err(20) => 20,
            (answer, _) => answer,
        }
    }),
    ("14 before 20", |sheet, list| match (loads(sheet, list), measure(sheet)) {
        (20, Ok(silo)) if list.len() != silo.answers_length() => 14,
        (answer, _) => answer,
    }),
    ("a long bin's list, with 20", |sheet, list| match loads(sheet, list) {
        20 => {
            loads(&shortened(sheet), list);
            20
        }
        answer => answer,
    }),
    ("takes g = V for V - 1", |sheet, list| {
        taken_for(sheet, list, |silo| {
            let most = silo.foot().checked_sub(1)?;
            (silo.g() == most + 1).then_some(Silo { headroom: Some(most), ..silo })
        })
    }),
    ("takes g modulo 2^16 in 17", |sheet, list| {
        taken_for(sheet, list, |silo| {
            let g = silo.headroom? % 65_536;
            (silo.g() >= silo.foot()).then_some(Silo { headroom: Some(g), ..silo })
        })
    }),
    ("12 by V + H", |sheet, list| {
        refusing(sheet, list, 12, |silo| silo.foot() + silo.hopper_height >= 10 * silo.d_c())
    }),
    ("11 by the load depth", |sheet, list| {
        taken_for(sheet, list, |silo| {
            let (foot, g) = (silo.foot(), silo.g());
            let (last, above) = silo.depths.split_last()?;
            let depths = [above, &[foot]].concat();
            (foot + 1..=foot + g).contains(last).then(|| Silo { depths, ..silo.clone() })
        })
    }),
    ("refuses depths above the surface", |sheet, list| {
        refusing(sheet, list, 11, |silo| silo.depths[0] < silo.g())
    }),
    ("refuses depths with one load depth", |sheet, list| {
        refusing(sheet, list, 11, |silo| silo.depths.get(1).is_some_and(|z| *z <= silo.g()))
    }),
    ("refuses a headroom of 0", |sheet, list| {
        refusing(sheet, list, 4, |silo| silo.headroom == Some(0))
    }),
    ("refuses every headroom as bytes left over", |sheet, list| {
        refusing(sheet, list, 5, |silo| silo.headroom.is_some())
    }),
    ("takes kind 7 for a headroom", |sheet, list| match sheet {
        [six @ .., 4, 0, 7, 0, a, b, c, d] if records(six).is_ok() => {
            loads(&[six, &[4, 0, 8, 0, *a, *b, *c, *d]].concat(), list)
        }
        _ => loads(sheet, list),
    }),
    ("a byte behind the sixth record as left over", |sheet, list| {
        behind_sixth(sheet, list, |rest| (rest.len() == 1).then_some(5))
    }),
    ("less than a header behind the sixth record as left over", |sheet, list| {
        behind_sixth(sheet, list, |rest| (1..4).contains(&rest.len()).then_some(5))
    }),
    ("ignores less than a header behind the sixth record", |sheet, list| {
        match sheet.len() - without_rest(sheet).len() {
            1..4 => loads(without_rest(sheet), list),
            _ => loads(sheet, list),
        }
    }),
    ("13 for squat bins", |sheet, list| refusing(sheet, list, 13, is_squat)),
    ("13 before 14 for squat bins", |sheet, list| match (loads(sheet, list), parse(sheet)) {
        (14, Ok(silo)) if is_squat(&silo) => 13,
        (answer, _) => answer,
    }),
    ("judges the list's length first", |sheet, list| {
        let due = records(sheet).map(|silo| silo.answers_length());
        if due.is_ok_and(|due| due != list.len()) {
            14
        } else {
            loads(sheet, list)
        }
    }),
];

/// Wrong answers of the length call.
const LENGTHS: &[(&str, Length)] = &[
    ("a length without its mark", |sheet| answers_length(sheet) % (1 << 32)),
    ("one number too many", |sheet| answers_length(sheet) + u64::from(parse(sheet).is_ok())),
    ("a mark on refusals too", |sheet| (1 << 32) | answers_length(sheet)),
    ("13 for squat bins", |sheet| match parse(sheet) {
        Ok(silo) if is_squat(&silo) => 13,
        _ => answers_length(sheet),
    }),
    ("no 17", |sheet| match (measure(sheet), records(sheet)) {
        (Err(17), Ok(silo)) => (1 << 32) + silo.answers_length() as u64,
        _ => answers_length(sheet),
    }),
    ("one number more for a headroom", |sheet| {
        let more = parse(sheet).is_ok_and(|silo| silo.headroom.is_some());
        answers_length(sheet) + u64::from(more)
    }),
    ("7 for a blank C0", |sheet| match parse(sheet) {
        Ok(silo) if silo.factor == 0 => 7,
        _ => answers_length(sheet),
    }),
    ("a C0 from 1 to 99 as blank", |sheet| match records(sheet) {
        Ok(silo) if silo.factor < 100 => answers_length(&Silo { factor: 0, ..silo }.sheet()),
        _ => answers_length(sheet),
    }),
];

/// Wrong answers of the governing call.
const CHOICES: &[(&str, Governing)] = &[
    ("the second when equal", |first, second| chosen(first, second, second.last() >= first.last())),
    ("the lesser last number", |first, second| chosen(first, second, second.last() < first.last())),
    ("the first numbers", |first, second| chosen(first, second, second.first() > first.first())),
    ("the greatest numbers", |first, second| {
        chosen(first, second, second.iter().max() > first.iter().max())
    }),
    ("last numbers with a sign", |first, second| {
        let [one, other] = [first, second].map(|list| list.last().map(|last| *last as i32));
        chosen(first, second, other > one)
    }),
    ("the longer list", |first, second| match first.len().cmp(&second.len()) {
        Ordering::Less => 2,
        Ordering::Equal => governing(first, second),
        Ordering::Greater => 1,
    }),
    ("lengths by their lowest byte", |first, second| {
        let [one, other] = [first, second].map(|list| &list[..list.len() % 256]);
        governing(one, other)
    }),
    ("the first of two empty lists", |first, second| match (first, second) {
        ([], []) => 1,
        _ => governing(first, second),
    }),
];

/// Lists written to by the governing call, or by the one for depths.
const LIST_WRITES: &[(&str, WriteLists)] = &[
    ("the first list's last number", |first, _| {
        // SAFETY: the list is lent whole, and no other reference to it is left.
        let last = unsafe { &mut *first }.last_mut();
        last.into_iter().for_each(|last| *last ^= 1);
    }),
    ("one number past the first list", |first, _| {
        // SAFETY: the first canary after the list.
        unsafe { first.cast::<u32>().add(first.len()).write(0) }
    }),
    ("one number past the second list", |_, second| {
        // SAFETY: the first canary after the list.
        unsafe { second.cast::<u32>().add(second.len()).write(0) }
    }),
];

/// Memory written to besides; canaries stand beside the sheet and the list.
const WRITES: &[(&str, Write)] = &[
    ("one number past the list", |_, list| {
        // SAFETY: the first canary after the list.
        unsafe { list.cast::<u32>().add(list.len()).write(0) }
    }),
    ("one number before the list", |_, list| {
        // SAFETY: the last canary before the list.
        unsafe { list.cast::<u32>().sub(1).write(0) }
    }),
    ("the sheet's first byte", |sheet, _| {
        // SAFETY: a byte of the sheet, or the canary after it where it is empty.
        unsafe { sheet.write(1) }
    }),
    ("a refused list's last number", |_, list| {
        // SAFETY: the list is lent whole, and no other reference to it is left.
        let last = unsafe { &mut *list }.last_mut();
        if let Some(last) = last.filter(|last| **last == UNTOUCHED) {
            *last = 0;
        }
    }),
];

/// The sheets of the other tests, as many of each random kind, without their pages, patches round a shell and depths for pressures: these
/// would tell the library's own numbers from those of a broken load call.
fn compared(library: &dyn Library) -> Outcome {
    compared_by(Comparison { loads_alone: true, ..Comparison::with(library) })
}

fn compared_whole(library: &dyn Library) -> Outcome {
    compared_by(Comparison::with(library))
}

fn compared_by(mut comparison: Comparison) -> Outcome {
    let mut random = Random::new(1_991);
    runs::table(&mut comparison, &order::sheets())?;
    runs::long_buffers(&mut comparison)?;
    runs::table(&mut comparison, &limits::sheets())?;
    runs::accepted(&mut comparison, &mut random, 3_000)?;
    runs::pairs(&mut comparison, &mut random, 2_000)
}

fn compared_governing(library: &dyn Library) -> Outcome {
    runs::governing(&Comparison::with(library), &mut Random::new(1_991)).map(|_| ())
}

fn is_found(name: &str, outcome: Outcome) {
    let difference = outcome.expect_err(name);
    println!("found, {name}: {}", difference.what);
}

#[test]
fn broken_load_calls_are_found() {
    for (name, loads) in [LISTS, ORDERS, FACTORS, HEADROOMS, BLANKS, REFUSALS].concat() {
        is_found(name, compared(&Broken { loads, ..WHOLE }));
    }
}

/// 2h > 3·d_c for 2h ≥ 3·d_c: the stand-ins with other factors change nothing else, or this would be found.
#[test]
fn equal_factors_are_no_difference() {
    let loads: Loads = |sheet, list| {
        discharged(sheet, list, |silo| match Discharge::of(silo) {
            _ if 2 * silo.height() == 3 * silo.d_c() => {
                Discharge::squat(&c0(silo), &slenderness(silo))
            }
            factors => factors,
        })
    };
    compared(&Broken { loads, ..WHOLE }).unwrap();
}

#[test]
fn broken_length_calls_are_found() {
    for (name, answers_length) in LENGTHS {
        is_found(name, compared(&Broken { answers_length: *answers_length, ..WHOLE }));
    }
}

fn judging(call: Call, rule: Rule) -> Broken {
    Broken { sides: Some((call, rule)), ..WHOLE }
}

#[test]
fn sides_judged_otherwise_are_found() {
    for (calls, _, rules) in sides::CALLS {
        for call in calls {
            let loads_alone = [Call::Loads, Call::AnswersLength].contains(call);
            for (name, rule) in rules {
                let library = judging(*call, *rule);
                let comparison = Comparison { loads_alone, ..Comparison::with(&library) };
                is_found(&format!("{name}, {call:?}"), compared_by(comparison));
            }
        }
    }
}

#[test]
fn sides_judged_alike_are_no_difference() {
    let sheets = order::sheets();
    for (calls, due, _) in sides::CALLS {
        for call in calls {
            runs::table(&mut Comparison::with(&judging(*call, due)), &sheets).unwrap();
        }
    }
}

#[test]
fn broken_page_calls_are_found() {
    let laid = pages::LAYOUTS.iter().map(|(name, layout)| (name, Pages::Laid(*layout)));
    let calls = pages::CALLS.iter().map(|(name, page)| (name, Pages::Calls(*page, page_length)));
    let lengths = pages::LENGTHS.iter().map(|(name, length)| (name, Pages::Calls(page, *length)));
    for (name, pages) in laid.chain(calls).chain(lengths) {
        is_found(name, compared_whole(&Broken { pages, ..WHOLE }));
    }
}

#[test]
fn the_same_layout_is_no_difference() {
    let same = Broken { pages: pages::SAME, ..WHOLE };
    let mut comparison = Comparison::with(&same);
    runs::table(&mut comparison, &order::sheets()).unwrap();
    runs::long_buffers(&mut comparison).unwrap();
}

#[test]
fn broken_shell_patch_calls_are_found() {
    for (name, shell_patch) in [shells::REPLIES, shells::CALLS].concat() {
        is_found(name, compared_whole(&Broken { shell_patch, ..WHOLE }));
    }
}

/// A stand-in that makes what is due passes.
fn is_no_difference(same: &Broken) {
    let mut comparison = Comparison::with(same);
    runs::table(&mut comparison, &order::sheets()).unwrap();
    runs::accepted(&mut comparison, &mut Random::new(1_991), 100).unwrap();
}

#[test]
fn the_same_reply_is_no_difference() {
    is_no_difference(&Broken { shell_patch: shells::SAME, ..WHOLE });
}

#[test]
fn broken_calls_for_depths_are_found() {
    let replies = depths::REPLIES.iter().map(|(name, reply)| (name, Depths::Replied(*reply)));
    let singles =
        depths::SINGLES.iter().map(|(name, call)| (name, Depths::Calls(*call, depths_for)));
    let lists = depths::LISTS.iter().map(|(name, call)| (name, Depths::Calls(depth_for, *call)));
    for (name, depths) in replies.chain(singles).chain(lists) {
        is_found(name, compared_whole(&Broken { depths, ..WHOLE }));
    }
}

#[test]
fn the_same_depths_are_no_difference() {
    is_no_difference(&Broken { depths: depths::SAME, ..WHOLE });
}

#[test]
fn broken_governing_calls_are_found() {
    for (name, governing) in CHOICES {
        is_found(name, compared_governing(&Broken { governing: *governing, ..WHOLE }));
    }
}

#[test]
fn stray_writes_are_found() {
    for (name, write) in WRITES {
        is_found(name, compared(&Broken { write: *write, ..WHOLE }));
    }
    for (name, write_page) in pages::WRITES {
        is_found(name, compared_whole(&Broken { write_page: *write_page, ..WHOLE }));
    }
    for (name, write_reply) in shells::WRITES {
        is_found(name, compared_whole(&Broken { write_reply: *write_reply, ..WHOLE }));
    }
    for (name, write_depths) in WRITES {
        let name = format!("{name}, by the call for depths");
        is_found(&name, compared_whole(&Broken { write_depths: *write_depths, ..WHOLE }));
    }
    for (name, write_lists) in LIST_WRITES {
        let library = Broken { write_lists: *write_lists, ..WHOLE };
        is_found(&format!("{name}, by the call for depths"), compared_whole(&library));
        is_found(name, compared_governing(&library));
    }
}
