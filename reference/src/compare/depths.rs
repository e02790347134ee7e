//! The comparison of the two calls that tell the depths for pressures.

use super::{expect_of, replied_to, Comparison};
use crate::answers::{Answers, P_HE, Z};
use crate::calls::{expect, Difference, Outcome, UNTOUCHED};
use crate::depths::{bounds, is_reply, judge, MOST};
use crate::formulas::Discharge;
use crate::inputs::Random;
use crate::sheet::{parse, Silo};
use std::collections::BTreeMap;

/// Lists of pressures, each made of 33 that never fall.
type Pressures = (&'static str, fn(&[u32], &mut Random) -> Vec<u32>);
pub const PRESSURES: [Pressures; 7] = [
    ("one", |all, random| vec![random.pick(all)]),
    ("two equal", |all, random| vec![random.pick(all); 2]),
    ("some", |all, random| {
        let (from, to) = (random.below(16) as usize, 17 + random.below(15) as usize);
        all[from..to].to_vec()
    }),
    ("32", |all, _| all[..MOST].to_vec()),
    ("none", |_, _| vec![]),
    ("33", |all, _| all.to_vec()),
    ("falling by one", |all, random| {
        let mut some = all[..2 + random.below(MOST as u64 - 1) as usize].to_vec();
        let place = random.below(some.len() as u64 - 1) as usize;
        some[place] = some[place].max(1);
        some[place + 1] = some[place] - 1;
        some
    }),
];

/// Those of them that an accepted sheet is replied to.
pub const RISING: usize = 4;

/// Lengths of reply lists beside the pressures', as many as lists of these; the last has the lowest byte of the one due.
const LISTS: [fn(usize) -> usize; PRESSURES.len()] = [
    |due| due,
    |due| due,
    |due| due,
    |due| due.saturating_sub(1),
    |due| due + 1,
    |_| 0,
    |due| due + 256,
];

/// What the list's call answers to accepted sheets.
pub const ANSWERS: [(&str, usize); 3] = [("0", 0), ("21", 21), ("22", 22)];

/// Places of replies.
pub const REPLIES: [&str; 4] = ["0", "the surface under a headroom", "between", "V"];

fn place(silo: &Silo, depth: u64) -> usize {
    match depth {
        _ if depth == silo.foot() => 3,
        0 => 0,
        _ if depth == silo.g() => 1,
        _ => 2,
    }
}

/// 33 pressures that never fall: the ends, and about some numbers, the last of which is the greatest.
fn telling(numbers: &[u64], random: &mut Random) -> Vec<u32> {
    let most = numbers.last().copied().unwrap_or(10_000);
    let next_to = |number: u64, random: &mut Random| (number + random.below(3)).saturating_sub(1);
    let pressure = |random: &mut Random| match random.below(8) {
        0 => 0,
        1 => 1,
        2 => u32::MAX.into(),
        3 => next_to(most, random),
        4..6 if !numbers.is_empty() => next_to(random.pick(numbers), random),
        _ => random.below(most + 2),
    };
    let mut all: Vec<u32> = (0..=MOST).map(|_| pressure(random) as u32).collect();
    all.sort();
    all
}

/// Pressures as a difference tells them, no more than one over the longest list.
fn shown(pressures: &[u32]) -> String {
    let some = &pressures[..pressures.len().min(MOST + 1)];
    format!("{} pressures {some:?}", pressures.len())
}

/// The strakes' p_he, which never falls, as pressures.
fn carried(answers: &Answers<u64>) -> Vec<u32> {
    answers.strakes.iter().map(|number| *number as u32).collect()
}

impl Comparison<'_> {
    /// The list's call with each of those pressures and of those reply lists once; which go together, the sheet's own bytes choose. The
    /// pressures of an accepted sheet are about its p_he. A refused one is also asked about a single pressure.
    pub(super) fn depths(&mut self, bytes: &[u8], listed: Result<&Answers<u64>, u64>) -> Outcome {
        if self.loads_alone {
            return Ok(());
        }
        let p_he = |answers: &Answers<u64>| answers.rows.iter().map(|row| row[P_HE]).collect();
        let numbers = listed.map(|answers| [p_he(answers), answers.strakes.clone()].concat());
        let numbers: Vec<u64> = numbers.unwrap_or_default();
        let refusal = listed.err().unwrap_or(0);
        let mut random = Random::of(bytes);
        let all = telling(&numbers, &mut random);
        let first = random.below(LISTS.len() as u64) as usize;
        for (i, (_, pressures)) in PRESSURES.iter().enumerate() {
            let pressures = pressures(&all, &mut random);
            let length = LISTS[(first + i) % LISTS.len()](pressures.len());
            let answer = self.depths_in(bytes, &pressures, length)?;
            self.tally.depths[refusal as usize][answer as usize] += 1;
            self.tally.pressures_replied[i] += u64::from(answer == 0);
        }
        if refusal > 0 {
            self.depth(bytes, random.pick(&all))?;
        }
        Ok(())
    }

    /// The call for a single pressure: the refusal due, or a marked depth that the words and the bounds allow; tells its answer.
    pub fn depth(&mut self, bytes: &[u8], pressure: u32) -> Result<u64, Difference> {
        let answer = self.calls.depth_for(bytes, pressure)?;
        match parse(bytes) {
            Ok(silo) => self.replied(&silo, &[pressure], &[answer])?,
            Err(due) => expect(answer == due, bytes, || {
                format!("pressure {pressure}: answer {answer}, {due} due")
            })?,
        }
        Ok(answer)
    }

    /// The call for a list of pressures with a reply list of that length; tells its answer. The reply list has the depths of the single
    /// pressures, or is as it was.
    pub fn depths_in(
        &mut self,
        bytes: &[u8],
        pressures: &[u32],
        length: usize,
    ) -> Result<u32, Difference> {
        let (answer, depths) = self.calls.depths_for(bytes, pressures, length)?;
        let judged = judge(bytes, pressures, length);
        let call = || format!("{}, reply list of {length}", shown(pressures));
        if let Some(silo) = replied_to(bytes, (answer, &depths), UNTOUCHED, judged, call)? {
            let single = pressures.iter().map(|pressure| self.calls.depth_for(bytes, *pressure));
            let single = single.collect::<Result<Vec<u64>, Difference>>()?;
            let marked: Vec<u64> =
                depths.iter().map(|depth| (1 << 32) + u64::from(*depth)).collect();
            expect(single == marked, bytes, || {
                format!("{}: depths {depths:?}, {single:?} one by one", shown(pressures))
            })?;
            self.replied(&silo, pressures, &single)?;
        }
        Ok(answer)
    }

    /// Marked depths as replies: by the p_he that the library lists for them and for the millimetre below each, by the exact bounds of p_he,
    /// and beside the p_he of the sheet's own depths and of its strakes.
    fn replied(&mut self, silo: &Silo, pressures: &[u32], marked: &[u64]) -> Outcome {
        let depths: Vec<u64> = marked.iter().map(|depth| depth.wrapping_sub(1 << 32)).collect();
        expect_of(depths.iter().all(|depth| *depth <= silo.foot()), silo, || {
            format!("{}: answers {marked:?}, marked depths from 0 to V due", shown(pressures))
        })?;
        let p_he = self.p_he_about(silo, &depths)?;
        let exact: BTreeMap<u64, _> = p_he.keys().map(|z| (*z, bounds(silo, *z))).collect();
        let listed = self.listed_p_he(silo)?;
        for (pressure, depth) in pressures.iter().zip(depths) {
            let by_words = is_reply(silo, depth, *pressure, |z| (p_he[&z], p_he[&z]));
            expect_of(by_words, silo, || {
                let p_he = p_he.range(depth..=depth + 1);
                format!("pressure {pressure}: depth {depth}, about which p_he is {p_he:?}")
            })?;
            let by_bounds = is_reply(silo, depth, *pressure, |z| exact[&z]);
            expect_of(by_bounds, silo, || {
                let exact = exact.range(depth..=depth + 1);
                format!("pressure {pressure}: depth {depth}, about which p_he is inside {exact:?}")
            })?;
            let apart =
                listed.iter().find(|(z, p_he)| (*p_he <= (*pressure).into()) != (*z <= depth));
            expect_of(apart.is_none(), silo, || {
                format!("pressure {pressure}: depth {depth}, beside z and p_he {apart:?}")
            })?;
            self.tally.depth_replies[place(silo, depth)] += 1;
        }
        Ok(())
    }

    /// The library's p_he at these depths and at the millimetre below each, where the wall goes on.
    fn p_he_about(
        &mut self,
        silo: &Silo,
        depths: &[u64],
    ) -> Result<BTreeMap<u64, u64>, Difference> {
        let mut depths: Vec<u64> = depths.iter().flat_map(|depth| [*depth, depth + 1]).collect();
        depths.retain(|depth| *depth <= silo.foot());
        depths.sort();
        depths.dedup();
        let rows = self.answers(&Silo { depths, ..silo.clone() })?.rows;
        Ok(rows.iter().map(|row| (row[Z], row[P_HE])).collect())
    }

    /// The p_he that the sheet's own list has, for its depths and at its lower edges.
    fn listed_p_he(&mut self, silo: &Silo) -> Result<Vec<(u64, u64)>, Difference> {
        let answers = self.answers(silo)?;
        let rows = answers.rows.iter().map(|row| (row[Z], row[P_HE]));
        Ok(rows.chain(silo.edges().into_iter().zip(answers.strakes)).collect())
    }

    /// The depths of an accepted sheet for pressures that never fall.
    fn depths_of(&self, silo: &Silo, pressures: &[u32]) -> Result<Vec<u32>, Difference> {
        let bytes = silo.sheet();
        let (answer, depths) = self.calls.depths_for(&bytes, pressures, pressures.len())?;
        expect(answer == 0, &bytes, || format!("pressures {pressures:?}: answer {answer}"))?;
        Ok(depths)
    }

    /// Two sheets that mean the same: both calls answer alike, and the list's leaves alike lists.
    pub(super) fn same_depths(&self, one: &[u8], other: &[u8]) -> Outcome {
        if self.loads_alone {
            return Ok(());
        }
        let pressures = [0, 1, 1_000, 10_000, u32::MAX];
        for pressure in pressures {
            let answered = |bytes| self.calls.depth_for(bytes, pressure);
            let alike = answered(one)? == answered(other)?;
            expect(alike, other, || format!("depth for {pressure} differs with a headroom of 0"))?;
        }
        for length in [pressures.len() - 1, pressures.len()] {
            let answered = |bytes| self.calls.depths_for(bytes, &pressures, length);
            let alike = answered(one)? == answered(other)?;
            expect(alike, other, || format!("depths in {length} differ with a headroom of 0"))?;
        }
        Ok(())
    }

    /// A silo with a blank factor, for the p_he of its strakes: the same depths as with 155, and beside 135 none that is greater.
    pub(super) fn blank_depths(&self, silos: &[Silo; 3], answers: &Answers<u64>) -> Outcome {
        if self.loads_alone {
            return Ok(());
        }
        let pressures = carried(answers);
        let [blank, soft, careful] = silos.each_ref().map(|silo| self.depths_of(silo, &pressures));
        let (bytes, blank) = (silos[0].sheet(), blank?);
        expect(blank == careful?, &bytes, || {
            "a blank factor's depths are not those of 155".into()
        })?;
        let no_greater = blank.iter().zip(soft?).all(|(blank, soft)| *blank <= soft);
        expect(no_greater, &bytes, || "a blank factor's depth is greater than that of 135".into())
    }

    /// Two silos with one section and product, for the p_he of the first one's strakes: with no smaller C_h the grain above the depth is no
    /// higher, since p_hf is the same, unless the other's wall ends there.
    pub(super) fn pair_depths(&mut self, one: &Silo, other: &Silo) -> Outcome {
        if self.loads_alone {
            return Ok(());
        }
        let pressures = carried(&self.answers(one)?);
        let silos = [one, other];
        let factors = silos.map(|silo| Discharge::of(silo).c_h);
        let [first, second] = silos.map(|silo| self.depths_of(silo, &pressures));
        let depths = [first?, second?];
        let grain = |i: usize, depth: u32| silos[i].load_depth(depth.into());
        for (more, less) in [(0, 1), (1, 0)] {
            let ordered = factors[more] >= factors[less];
            let no_higher = depths[more].iter().zip(&depths[less]).all(|(deep, other)| {
                grain(more, *deep) <= grain(less, *other) || u64::from(*other) == silos[less].foot()
            });
            expect(!ordered || no_higher, &[one.sheet(), other.sheet()].concat(), || {
                format!("pressures {pressures:?}: depths {depths:?}, a greater one with a greater factor")
            })?;
            self.tally.depth_pairs += u64::from(ordered);
        }
        Ok(())
    }
}
