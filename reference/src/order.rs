//! Sheets that break two rules at once: the first one in the order of document 01, with 17 of C-13 between 11 and 12 and 20 of C-17 between
//! 6 and 7, is the refusal; where that is 20, the other one is what the length calls answer. Of the shell patch call a rectangle breaks one
//! more, as do depths over V and other lists, which are given with every sheet; so are pressures that break 21 of C-19, reply lists that
//! break 22, and both.

use crate::inputs::sample;
use crate::limits::{Due, Single};
use crate::sheet::Silo;

type Break = fn(&mut Silo);
type Damage = fn(&mut Vec<u8>, usize);

/// Ways to break each rule from 6 to 12, in their order, that leave the others as they are and can be joined with any; but most silos that
/// break 6 are long too. The hopper alone is too high for 12, whatever the headroom.
const VALUES: [(u64, Break); 12] = [
    (6, |silo| silo.section = vec![silo.d_c(), 50_001]),
    (20, |silo| silo.section = vec![silo.d_c().min(16_666), 50_000]),
    (20, |silo| silo.section = vec![50_000, silo.d_c().min(16_666)]),
    (7, |silo| silo.weight = 999),
    (7, |silo| silo.factor = 99),
    (8, |silo| silo.e_o = u32::MAX.into()),
    (9, |silo| silo.run = u32::MAX.into()),
    (10, |silo| silo.strakes[4] = 199),
    (11, |silo| silo.depths = vec![5_000, 5_000]),
    (17, |silo| silo.headroom = Some(silo.foot())),
    (17, |silo| silo.headroom = Some(u32::MAX.into())),
    (12, |silo| {
        silo.section.fill(900);
        (silo.hopper_height, silo.run) = (9_000, 400);
    }),
];

/// Damage to the bytes of one record, from its first byte on, and the rule that it breaks.
const RECORD: [(u64, Damage); 4] = [
    (2, |sheet, at| sheet.truncate(at + 3)),
    (2, |sheet, at| sheet.truncate(at + 5)),
    (3, |sheet, at| sheet[at + 2] = 9),
    (4, |sheet, at| sheet[at] += 1),
];

/// Silos of 9 m under several widths: slender, at h = 1.5·d_c, squat, at h = d_c and below it, and rectangles, one of them at the limit of
/// 20; level with the brim and under a headroom; with C0 blank and written. No rule's place is taken by the shape or by the factor.
fn silos() -> Vec<Silo> {
    let walls = [(None, 1_800), (Some(0), 1_800), (Some(1_000), 2_000)];
    let of_section = |section: Vec<u64>| {
        let written = walls.map(|(headroom, strake)| Silo {
            section: section.clone(),
            strakes: vec![strake; 5],
            depths: vec![0, 1_000, 5_000],
            headroom,
            ..sample()
        });
        written.into_iter().flat_map(|silo| [Silo { factor: 0, ..silo.clone() }, silo])
    };
    let circles = [5_000, 6_000, 8_000, 9_000, 20_000].map(|width| vec![width]);
    let rectangles = [vec![5_000, 6_000], vec![5_000, 15_000]];
    circles.into_iter().chain(rectangles).flat_map(of_section).collect()
}

pub fn sheets() -> Vec<Due> {
    let of_silo = |silo: &Silo| {
        let unbroken = Due::of(silo.sheet(), 0, 0);
        let damaged = record_and_value(silo).into_iter().map(Due::from);
        [unbroken].into_iter().chain(two_values(silo)).chain(damaged)
    };
    let of_sheet = |headroom| {
        let whole = Silo { headroom, ..sample() }.sheet();
        [two_records(&whole), one_record(&whole)].concat()
    };
    let sheets = [None, Some(1_000)].into_iter().flat_map(of_sheet).map(Due::from);
    silos().iter().flat_map(of_silo).chain(sheets).collect()
}

/// Each rule alone, then each with each later one.
fn two_values(whole: &Silo) -> Vec<Due> {
    let mut sheets = Vec::new();
    for (i, (first, break_first)) in VALUES.into_iter().enumerate() {
        for (second, break_second) in VALUES.into_iter().skip(i) {
            let mut silo = whole.clone();
            break_second(&mut silo);
            let mut later = 0;
            if first != second {
                break_first(&mut silo);
                later = second;
            }
            sheets.push(Due::of(silo.sheet(), first, later));
        }
    }
    sheets
}

/// Where each record of a sheet begins.
fn starts(sheet: &[u8]) -> Vec<usize> {
    let mut starts = Vec::new();
    let mut at = 0;
    while at < sheet.len() {
        starts.push(at);
        at += 4 + usize::from(u16::from_le_bytes([sheet[at], sheet[at + 1]]));
    }
    starts
}

/// Rules 1 to 5 before each of 6 to 12. A byte behind the sixth record is a header cut short, behind the seventh it is left over.
fn record_and_value(whole: &Silo) -> Vec<Single> {
    let mut sheets = Vec::new();
    for (_, break_value) in VALUES {
        let mut silo = whole.clone();
        break_value(&mut silo);
        let sheet = silo.sheet();
        for at in starts(&sheet) {
            for (rule, damage) in RECORD {
                let mut sheet = sheet.clone();
                damage(&mut sheet, at);
                sheets.push((sheet, rule));
            }
        }
        let due = if silo.headroom.is_some() { 5 } else { 2 };
        sheets.push(([&sheet[..], &[0]].concat(), due));
        sheets.push(([&sheet[..], &[0; 1_024]].concat(), 1));
    }
    sheets
}

/// Two records damaged, the later one first so that the places hold: the earlier one is the refusal. And too long a sheet, or a byte behind
/// the last record, with one record damaged.
fn two_records(whole: &[u8]) -> Vec<Single> {
    let starts = starts(whole);
    let mut sheets = Vec::new();
    for (i, at) in starts.iter().enumerate() {
        for (rule, damage) in RECORD {
            for later in &starts[i + 1..] {
                for (_, damage_later) in RECORD {
                    let mut sheet = whole.to_vec();
                    damage_later(&mut sheet, *later);
                    damage(&mut sheet, *at);
                    sheets.push((sheet, rule));
                }
            }
            let mut sheet = [whole, &[0]].concat();
            damage(&mut sheet, *at);
            sheets.push((sheet.clone(), rule));
            sheet.resize(1_025, 0);
            sheets.push((sheet, 1));
        }
    }
    sheets
}

/// In one record: header before kind, kind before length, length before payload.
fn one_record(whole: &[u8]) -> Vec<Single> {
    let mut sheets = Vec::new();
    for at in starts(whole) {
        let damaged = |kind: u8, longer: u8, length: usize| {
            let mut sheet = whole.to_vec();
            sheet[at + 2] = kind;
            sheet[at] += longer;
            sheet.truncate(at + length);
            sheet
        };
        let kind = whole[at + 2];
        sheets.extend([
            (damaged(9, 1, 3), 2),
            (damaged(9, 1, 4), 3),
            (damaged(9, 0, 4), 3),
            (damaged(kind, 1, 4), 4),
            (damaged(kind, 0, 4), 2),
        ]);
    }
    sheets
}
