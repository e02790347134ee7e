//! The comparison of the shell patch call.

use super::{band, expect_of, replied_to, Comparison};
use crate::answers::P_P;
use crate::calls::{expect, Difference, Outcome, UNTOUCHED_SIGNED};
use crate::cosine::COSINES;
use crate::formulas::{self, Discharge};
use crate::inputs::{sample, Random};
use crate::sheet::{records, Silo};
use crate::shell::{self, LENGTH};

/// Depths that are given with a sheet, beside what it lists and its V.
type Given = (&'static str, fn(&Silo, &mut Random) -> u64);
pub const GIVEN: [Given; 6] = [
    ("0", |_, _| 0),
    ("listed", |silo, random| random.pick(&silo.depths)),
    ("any", |silo, random| random.below(silo.foot() + 1)),
    ("V", |silo, _| silo.foot()),
    ("V + 1", |silo, _| silo.foot() + 1),
    ("far over V", |silo, random| {
        random.pick(&[u32::MAX.into(), 1 << 31, (1 << 16) + silo.foot()])
    }),
];
/// Those of them that an accepted sheet is replied to.
pub const INSIDE: usize = 4;

/// Lengths of reply lists, as many as depths; the last has the lowest byte of the one due.
const LISTS: [usize; GIVEN.len()] = [LENGTH, LENGTH, LENGTH - 1, LENGTH + 1, 0, LENGTH + 256];

/// What the call answers to accepted sheets, by its given depth, section and list.
pub const ANSWERS: [(&str, usize); 4] = [("0", 0), ("11", 11), ("19", 19), ("14", 14)];

fn is_circle(silo: &Silo) -> bool {
    silo.section.len() == 1
}

/// The first number of a reply that is not as due.
fn unlike(reply: &[i64], due: &[i64]) -> String {
    let mut numbers = reply.iter().zip(due).enumerate();
    match numbers.find(|(_, (number, due))| number != due) {
        Some((i, (number, due))) => format!("number {i} is {number}, {due} due"),
        None => "its numbers are as due".into(),
    }
}

/// Whether no size of the one reply is below that of the other.
fn no_smaller(one: &[i32], other: &[i32]) -> bool {
    one.iter().zip(other).all(|(one, other)| one.unsigned_abs() >= other.unsigned_abs())
}

impl Comparison<'_> {
    /// The call with each of those depths and of those lists once; which go together, the sheet's own bytes choose. Where its records
    /// cannot be read, the depths are those of the sample.
    pub(super) fn patches(&mut self, bytes: &[u8], refusal: u64) -> Outcome {
        if self.loads_alone {
            return Ok(());
        }
        let silo = records(bytes).unwrap_or_else(|_| sample());
        let mut random = Random::of(bytes);
        let first = random.below(GIVEN.len() as u64) as usize;
        for (i, length) in LISTS.into_iter().enumerate() {
            let given = (first + i) % GIVEN.len();
            let depth = GIVEN[given].1(&silo, &mut random);
            let answer = self.patch(bytes, depth, length)?;
            self.tally.patches[refusal as usize][answer as usize] += 1;
            self.tally.replies[given] += u64::from(answer == 0);
        }
        Ok(())
    }

    /// The call with that depth, and a list of that length; tells its answer. The list has the reply, or is as it was.
    pub fn patch(&mut self, bytes: &[u8], depth: u64, length: usize) -> Result<u32, Difference> {
        let (answer, reply) = self.calls.shell_patch(bytes, depth as u32, length)?;
        let judged = shell::judge(bytes, depth, length);
        let call = || format!("depth {depth}, reply list of {length}");
        if let Some(silo) = replied_to(bytes, (answer, &reply), UNTOUCHED_SIGNED, judged, call)? {
            self.reply(&silo, depth, reply)?;
        }
        Ok(answer)
    }

    /// The call for an accepted sheet, at V, with lists of these lengths.
    pub fn patch_in(&mut self, silo: &Silo, lengths: &[usize]) -> Outcome {
        if self.loads_alone {
            return Ok(());
        }
        let bytes = silo.sheet();
        let mut lengths = lengths.iter();
        lengths.try_for_each(|length| self.patch(&bytes, silo.foot(), *length).map(|_| ()))
    }

    /// The numbers are those of p_p at that depth, as the sheet's own list has it, or the list for that depth alone; and each size is at or
    /// above its exact value, by less than 5.
    fn reply(&mut self, silo: &Silo, depth: u64, reply: Vec<i32>) -> Outcome {
        let place = silo.depths.iter().position(|z| *z == depth);
        let depths = place.map_or_else(|| vec![depth], |_| silo.depths.clone());
        let listing = Silo { depths, ..silo.clone() };
        let row = self.answers(&listing)?.rows[place.unwrap_or(0)];
        let filling = formulas::filling(silo, depth);
        self.row(silo, &row, depth, &filling)?;
        let reply: Vec<i64> = reply.into_iter().map(i64::from).collect();
        let due = shell::reply(silo, row[P_P]);
        expect_of(reply == due, silo, || {
            format!("reply at depth {depth}: {}", unlike(&reply, &due))
        })?;
        let c_h = Discharge::of(silo).c_h;
        let exact = filling.horizontal.times(&c_h).times(&formulas::patch(silo));
        COSINES.iter().zip(&reply).enumerate().try_for_each(|(degree, (cosine, size))| {
            let name = format!("the patch at depth {depth} and {degree} degrees");
            band(silo, &name, *size as u64, &exact.product(cosine), 5)
        })
    }

    /// The reply to an accepted circle.
    fn patch_of(&self, silo: &Silo, depth: u64) -> Result<Vec<i32>, Difference> {
        let bytes = silo.sheet();
        let (answer, reply) = self.calls.shell_patch(&bytes, depth as u32, LENGTH)?;
        expect(answer == 0, &bytes, || format!("depth {depth}: answer {answer} for a circle"))?;
        Ok(reply)
    }

    /// Two sheets that mean the same: the call answers alike, and leaves alike lists.
    pub(super) fn same_patches(&self, one: &[u8], other: &[u8], depth: u64) -> Outcome {
        if self.loads_alone {
            return Ok(());
        }
        for length in [LENGTH - 1, LENGTH] {
            let answered = |bytes| self.calls.shell_patch(bytes, depth as u32, length);
            let alike = answered(one)? == answered(other)?;
            expect(alike, other, || {
                format!("reply list of {length} differs with a headroom of 0")
            })?;
        }
        Ok(())
    }

    /// A circle with a blank factor: the same reply at V as with 155, and beside 135 no smaller one.
    pub(super) fn blank_patches(&self, silos: &[Silo; 3]) -> Outcome {
        if self.loads_alone || !is_circle(&silos[0]) {
            return Ok(());
        }
        let [blank, soft, careful] = silos.each_ref().map(|silo| self.patch_of(silo, silo.foot()));
        let (bytes, blank) = (silos[0].sheet(), blank?);
        expect(blank == careful?, &bytes, || "a blank factor's reply is not that of 155".into())?;
        let no_smaller = no_smaller(&blank, &soft?);
        expect(no_smaller, &bytes, || "a blank factor's reply is smaller than that of 135".into())
    }

    /// Two circles with one section and product, at the greatest load depth that both have: no number is smaller where neither C_h nor β is,
    /// since p_hf is the same there.
    pub(super) fn pair_patches(&mut self, one: &Silo, other: &Silo) -> Outcome {
        if self.loads_alone || !is_circle(one) {
            return Ok(());
        }
        let [of_one, of_other] = [one, other].map(|silo| silo.load_depth(silo.foot()));
        let depth = of_one.min(of_other);
        let factors = [one, other].map(|silo| (Discharge::of(silo).c_h, formulas::patch(silo)));
        let [first, second] = [one, other].map(|silo| self.patch_of(silo, depth + silo.g()));
        let replies = [first?, second?];
        for (more, less) in [(0, 1), (1, 0)] {
            let ordered = factors[more].0 >= factors[less].0 && factors[more].1 >= factors[less].1;
            let holds = !ordered || no_smaller(&replies[more], &replies[less]);
            expect(holds, &[one.sheet(), other.sheet()].concat(), || {
                format!("of two replies at the load depth {depth}, the one with greater factors is smaller")
            })?;
            self.tally.patch_pairs += u64::from(ordered);
        }
        Ok(())
    }
}
