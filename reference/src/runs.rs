//! What is compared in one go: tables of sheets with the number due, and random sheets of each kind.

use crate::calls::{expect, Difference, Outcome};
use crate::catalogue::TABLE;
use crate::compare::Comparison;
use crate::inputs::{self, Random};
use crate::limits::{self, Due};
use crate::sheet::{measure, parse};
use crate::{page, shell};
use std::collections::BTreeMap;

/// Lengths of the lists that a refused sheet is lent with: none, one, the sample's, and the longest there is.
const LISTS: [usize; 4] = [0, 1, 31, 1_634];

/// Sheets with the numbers due, which the second implementation has to agree with as well.
pub fn table(comparison: &mut Comparison, sheets: &[Due]) -> Outcome {
    for Due { sheet, loads, length } in sheets {
        let judged = [parse(sheet), measure(sheet)].map(|silo| silo.err().unwrap_or(0));
        expect(judged == [*loads, *length], sheet, || {
            format!("{loads} is due, {length} from the length calls, the reference says {judged:?}")
        })?;
        comparison.sheet(sheet, &LISTS)?;
    }
    Ok(())
}

/// Page buffers of 2^16 bytes and more, short by the lowest two bytes of their length, and reply lists and lists of pressures
/// that are as long as due by these, or by the lowest one.
pub fn long_buffers(comparison: &mut Comparison) -> Outcome {
    limits::pages().iter().try_for_each(|silo| {
        let due = page::length(silo);
        comparison.page_in(silo, &[1 << 16, (1 << 16) + due - 1, 1 << 20])?;
        comparison.patch_in(silo, &[(1 << 16) + shell::LENGTH, 1 << 20])?;
        long_depths(comparison, &silo.sheet())
    })
}

fn long_depths(comparison: &mut Comparison, bytes: &[u8]) -> Outcome {
    if comparison.loads_alone {
        return Ok(());
    }
    for pressures in [1, (1 << 8) + 1, (1 << 16) + 1] {
        for length in [1, pressures, (1 << 16) + 1] {
            comparison.depths_in(bytes, &vec![0; pressures], length)?;
        }
    }
    Ok(())
}

/// Random accepted silos, one in 32 of them heavy.
pub fn accepted(comparison: &mut Comparison, random: &mut Random, count: u64) -> Outcome {
    (0..count).try_for_each(|_| {
        let heavy = random.one_in(32);
        let silo = if heavy { inputs::heavy(random) } else { inputs::silo(random) };
        comparison.accepted(&silo)
    })
}

/// Random silos, each beside another one with its section and product, and beside one that is level with its brim; both of a pair made
/// blank too.
pub fn pairs(comparison: &mut Comparison, random: &mut Random, count: u64) -> Outcome {
    (0..count).try_for_each(|_| {
        let silo = inputs::silo(random);
        let sibling = inputs::sibling(random, &silo);
        comparison.pair(&silo, &sibling)?;
        [&silo, &sibling].into_iter().try_for_each(|silo| comparison.blank_factor(silo))?;
        comparison.level(&silo, &inputs::level(&silo))
    })
}

/// Damaged sheets of a random silo, one time in four of a long bin, each lent with a list of any length where it is refused.
pub fn damaged(comparison: &mut Comparison, random: &mut Random, count: u64) -> Outcome {
    let long = random.one_in(4);
    let silo = if long { inputs::long(random) } else { inputs::silo(random) };
    (0..count).try_for_each(|_| {
        let bytes = inputs::damaged(random, &silo);
        let length = random.below(2 * silo.answers_length() as u64) as usize;
        comparison.sheet(&bytes, &[length])
    })
}

/// Damaged sheets for each accepted one of a round.
const DAMAGED: u64 = 40;

/// A round of the long run: an accepted silo, a pair, and damaged sheets.
pub fn round(comparison: &mut Comparison, random: &mut Random) -> Outcome {
    accepted(comparison, random, 1)?;
    pairs(comparison, random, 1)?;
    damaged(comparison, random, DAMAGED)
}

/// The catalogue call for every row and wall, for some that are not there, and for buffers of several lengths; tells how many calls had
/// each answer.
pub fn catalogue(comparison: &Comparison) -> Result<BTreeMap<u32, u64>, Difference> {
    let mut calls = BTreeMap::new();
    let rows = (0..TABLE.len() as u32 + 3).chain([255, 256, 1 << 16, 1 << 31, u32::MAX]);
    for row in rows {
        for wall in [0, 1, 2, 3, 256, 1 << 16, u32::MAX] {
            for length in [14, 0, 1, 13, 15, 28] {
                *calls.entry(comparison.catalogue(row, wall, length)?).or_insert(0) += 1;
            }
        }
    }
    Ok(calls)
}

/// Lengths of strake lists, the longest of a wall among them, and some that are equal in their lowest byte.
const LENGTHS: [usize; 6] = [1, 2, 24, 25, 256, 257];
/// Numbers at the end of a strake list.
const LAST: [u32; 7] = [0, 1, 35_399, i32::MAX as u32, 1 << 31, u32::MAX - 1, u32::MAX];

/// The empty list, and one of each length with each last number, after the least and after the greatest numbers.
fn strake_lists() -> Vec<Vec<u32>> {
    let mut lists = vec![vec![]];
    for length in LENGTHS {
        for last in LAST {
            for before in [0, u32::MAX] {
                lists.push([vec![before; length - 1], vec![last]].concat());
            }
        }
    }
    lists
}

/// The governing call for each of those lists with each, and for random ones; tells how many calls had each answer.
pub fn governing(
    comparison: &Comparison,
    random: &mut Random,
) -> Result<BTreeMap<u32, u64>, Difference> {
    let lists = strake_lists();
    let mut calls = BTreeMap::new();
    for first in &lists {
        for second in &lists {
            *calls.entry(comparison.governing(first, second)?).or_insert(0) += 1;
        }
    }
    for _ in 0..10_000 {
        let [first, second] = inputs::strake_lists(random);
        *calls.entry(comparison.governing(&first, &second)?).or_insert(0) += 1;
    }
    Ok(calls)
}
