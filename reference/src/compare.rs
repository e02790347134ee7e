//! The comparison of a library with document 01 and with C-11 and C-13 to C-19 of document 02, for sheets of any kind.
//!
//! For an accepted sheet, its list read in columns: filling pressures and P_w inside their bands, each load made from filling equal to its
//! formula over the filling pressures and inside its allowance, all at the load depth, nothing falling with depth; the page of these numbers,
//! the patch round its shell at depths given with it, and the depths for pressures given with it. For a refused one: its number from every
//! call, and lists and buffer as they were; but the length calls measure a long bin, or tell its next refusal. For a sheet of six records,
//! accepted or not: the same with a headroom of 0. For every sheet made blank, accepted or not: the same with 155 and with 135 written in.

mod depths;
mod pages;
mod shell;

use crate::answers::{Answers, COLUMNS, LOADS, P_HE, P_HF, P_P, P_VF, P_W, P_WE, P_WF, Z};
use crate::calls::{expect, Calls, Difference, Library, Outcome, UNTOUCHED, UNTOUCHED_BYTE};
use crate::formulas::{self, Discharge, Filling};
use crate::fraction::{fraction, least, whole, Fraction, Real};
use crate::sheet::{measure, parse, records, told, with_factor, Silo};
use crate::{answers, catalogue, governing, page};
use depths::{PRESSURES, REPLIES, RISING};
use pages::{BUFFERS, DIGITS, EACH, EXACT};
use shell::{GIVEN, INSIDE};
use std::array;
use std::fmt;
use std::ops::Range;

/// The refusals of the load and page calls and, but for 20, of their length calls, in their order; 13 is retired.
pub const REFUSALS: [usize; 16] = [1, 2, 3, 4, 5, 6, 20, 7, 8, 9, 10, 11, 17, 12, 14, 18];

/// Those of a list or buffer, lent with an accepted sheet.
const OF_LENGTH: [usize; 2] = [14, 18];

/// Room for a count by the number of a refusal.
const NUMBERS: usize = 23;

/// What the length calls tell of a long bin, which the others refuse with 20.
const TOLD: [&str; 2] = ["a length", "a later refusal"];

/// Kinds of silos by h/d_c: the three of the discharge factors, their limits apart.
const SHAPES: [&str; 5] = ["below 1", "1", "between 1 and 1.5", "1.5", "above 1.5"];

/// A silo's kind: how many of these it has reached.
fn shape(silo: &Silo) -> usize {
    let (h, d_c) = (silo.height(), silo.d_c());
    let limits = [h >= d_c, h > d_c, 2 * h >= 3 * d_c, 2 * h > 3 * d_c];
    limits.into_iter().filter(|reached| *reached).count()
}

/// Kinds of silos by their section.
const SECTIONS: [&str; 3] = ["circle", "rectangle", "rectangle of three times its width"];

fn section(silo: &Silo) -> usize {
    match silo.section[..] {
        [a, b] if a.max(b) == 3 * a.min(b) => 2,
        [_, _] => 1,
        _ => 0,
    }
}

/// Kinds of silos with a blank factor by h/d_c: C_h is 1, rests on h, or is C0.
const BLANKS: [&str; 3] = ["at most 1", "between 1 and 1.5", "from 1.5 on"];

fn blank(silo: &Silo) -> usize {
    [0, 0, 1, 2, 2][shape(silo)]
}

/// What is written into C0: nothing, its meaning before C-14, and the one of C-14.
const WRITTEN: [u16; 3] = [0, 135, 155];

/// Kinds of accepted sheets that are made blank, by their numbers beside those with 135.
const BESIDE: [&str; 2] = ["equal", "some greater"];

/// Kinds of sheets by their headroom.
const HEADROOMS: [&str; 3] = ["no record", "0", "above 0"];

fn headroom(silo: &Silo) -> usize {
    match silo.headroom {
        None => 0,
        Some(0) => 1,
        Some(_) => 2,
    }
}

/// Places of rows on sheets with a headroom above 0.
const PLACES: [&str; 3] = ["above the surface", "at it", "below"];

/// The names of kinds that have something with them.
fn names<K>(kinds: &[(&'static str, K)]) -> Vec<&'static str> {
    kinds.iter().map(|(name, _)| *name).collect()
}

/// What was compared.
#[derive(Default)]
pub struct Tally {
    /// Accepted sheets by h/d_c, by section, and by headroom; those of them with a blank factor by h/d_c; those with more than one depth,
    /// since the list of one is the same in rows and in columns.
    shapes: [u64; SHAPES.len()],
    sections: [u64; SECTIONS.len()],
    headrooms: [u64; HEADROOMS.len()],
    blanks: [u64; BLANKS.len()],
    several_depths: u64,
    /// Sheets that are made blank, each beside the same with 135 and with 155: accepted ones, and refused ones by number.
    pub beside: [u64; BESIDE.len()],
    blank_refused: [u64; NUMBERS],
    /// Sheets by the number of their refusal; at 14 lists of a wrong length and at 18 short buffers, each lent with an accepted sheet.
    pub refused: [u64; NUMBERS],
    /// Long bins by what the length calls tell of them.
    long: [u64; TOLD.len()],
    /// Page calls by the number of the sheet's refusal, 0 for an accepted one, and by their buffer.
    pages: [[u64; BUFFERS.len()]; NUMBERS],
    /// Shell patch calls by the number of the sheet's refusal, 0 for an accepted one, and by their answer; those with a reply by their depth.
    patches: [[u64; NUMBERS]; NUMBERS],
    replies: [u64; GIVEN.len()],
    /// Calls with a list of pressures by the number of the sheet's refusal, 0 for an accepted one, and by their answer; those with
    /// depths by their list; depths by their place.
    depths: [[u64; NUMBERS]; NUMBERS],
    pressures_replied: [u64; PRESSURES.len()],
    depth_replies: [u64; REPLIES.len()],
    /// Numbers of pages by their digits.
    pub digits: [u64; DIGITS + 1],
    /// Rows, and those on sheets with a headroom above 0 by their place.
    pub rows: u64,
    places: [u64; PLACES.len()],
    pub strakes: u64,
    /// Sheets of six records, each beside the same with a headroom of 0.
    zero_headrooms: u64,
    pub pairs: u64,
    /// Pairs whose discharge factors, or whose headrooms, differ; pairs with a blank factor.
    pub unlike_pairs: u64,
    pub unlike_headrooms: u64,
    pub blank_pairs: u64,
    /// Pairs of circles, each in each order, whose patches at one load depth have an order.
    pub patch_pairs: u64,
    /// Pairs, each in each order, whose depths for pressures have an order.
    pub depth_pairs: u64,
    /// Silos with a headroom above 0 beside one that is level with its brim.
    pub levels: u64,
    /// Filling pressures, and those of them that are less than 1 + 1/64 above.
    pub pressures: u64,
    pub tight: u64,
    /// Places where P_w falls with depth: it may, inside its band.
    pub line_falls: u64,
}

impl Tally {
    fn accepted(&self) -> u64 {
        self.shapes.iter().sum()
    }

    pub fn sheets(&self) -> u64 {
        let of_length: u64 = OF_LENGTH.iter().map(|number| self.refused[*number]).sum();
        self.accepted() + self.refused.iter().sum::<u64>() - of_length
    }

    /// The kinds that accepted sheets, their rows and the other calls are told apart by, with the count of each.
    fn kinds(&self) -> [(&str, Vec<(&str, u64)>); 13] {
        let counted = |names: &[&'static str], counts: &[u64]| {
            names.iter().copied().zip(counts.iter().copied()).collect()
        };
        let answered = |answers: &[(&'static str, usize)], counts: [u64; NUMBERS]| {
            answers.iter().map(|(name, answer)| (*name, counts[*answer])).collect()
        };
        [
            ("accepted, by h/d_c", counted(&SHAPES, &self.shapes)),
            ("accepted, by section", counted(&SECTIONS, &self.sections)),
            ("accepted, by headroom", counted(&HEADROOMS, &self.headrooms)),
            ("accepted, by depths", vec![("more than one", self.several_depths)]),
            ("accepted with a blank factor, by h/d_c", counted(&BLANKS, &self.blanks)),
            ("accepted and made blank, beside 135", counted(&BESIDE, &self.beside)),
            ("rows under a headroom", counted(&PLACES, &self.places)),
            ("page calls for accepted sheets, by buffer", self.page_calls(0)),
            (
                "shell patch calls for accepted sheets, by answer",
                answered(&shell::ANSWERS, self.patches[0]),
            ),
            ("replies, by depth", counted(&names(&GIVEN[..INSIDE]), &self.replies)),
            (
                "calls with a list of pressures for accepted sheets, by answer",
                answered(&depths::ANSWERS, self.depths[0]),
            ),
            (
                "lists of pressures with depths",
                counted(&names(&PRESSURES[..RISING]), &self.pressures_replied),
            ),
            ("depths for pressures, by place", counted(&REPLIES, &self.depth_replies)),
        ]
    }

    fn page_calls(&self, refusal: usize) -> Vec<(&str, u64)> {
        names(&BUFFERS).into_iter().zip(self.pages[refusal]).collect()
    }
}

impl fmt::Display for Tally {
    fn fmt(&self, f: &mut fmt::Formatter) -> fmt::Result {
        let refused = REFUSALS.map(|n| format!("{n}: {}", self.refused[n]));
        writeln!(f, "{} sheets compared, {} of them accepted", self.sheets(), self.accepted())?;
        for (kind, counts) in self.kinds() {
            let counts: Vec<_> = counts.iter().map(|(name, n)| format!("{name}: {n}")).collect();
            writeln!(f, "{kind}: {}", counts.join(", "))?;
        }
        writeln!(f, "refused, by number: {}", refused.join(", "))?;
        let long = TOLD.iter().zip(self.long).map(|(name, n)| format!("{name}: {n}"));
        let long: Vec<_> = long.collect();
        writeln!(f, "refused with 20, by what the length calls tell: {}", long.join(", "))?;
        let blank_refused: u64 = self.blank_refused.iter().sum();
        writeln!(f, "refused and made blank, beside 135 and 155: {blank_refused}")?;
        let refused_pages: u64 = self.pages[1..].iter().flatten().sum();
        writeln!(f, "page calls for refused sheets: {refused_pages}")?;
        let refused_patches: u64 = self.patches[1..].iter().flatten().sum();
        writeln!(f, "shell patch calls for refused sheets: {refused_patches}")?;
        let refused_depths: u64 = self.depths[1..].iter().flatten().sum();
        writeln!(f, "calls with a list of pressures for refused sheets: {refused_depths}")?;
        let digits: Vec<_> = (1..=DIGITS).map(|n| format!("{n}: {}", self.digits[n])).collect();
        writeln!(f, "numbers of pages, by digits: {}", digits.join(", "))?;
        writeln!(
            f,
            "accepted sheets had {} rows and {} strakes; {} sheets of six records beside the same with a headroom of 0",
            self.rows, self.strakes, self.zero_headrooms
        )?;
        writeln!(
            f,
            "{} pairs with one section and product, {} of them with unlike factors, {} with unlike headrooms, {} with a blank factor; {} beside a level silo",
            self.pairs, self.unlike_pairs, self.unlike_headrooms, self.blank_pairs, self.levels
        )?;
        write!(
            f,
            "less than 1 + 1/64 above: {} of {} filling pressures; P_w falls with depth {} times",
            self.tight, self.pressures, self.line_falls
        )
    }
}

type Row = answers::Row<u64>;
/// A row and its load depth.
type AtDepth = (u64, Row);

pub struct Comparison<'a> {
    pub calls: Calls<'a>,
    /// The load call and its length call are made, and none of the others.
    pub loads_alone: bool,
    pub tally: Tally,
}

impl<'a> Comparison<'a> {
    pub fn with(library: &'a dyn Library) -> Comparison<'a> {
        let calls = Calls { library, canaries: 8 };
        Comparison { calls, loads_alone: false, tally: Tally::default() }
    }

    /// Prints what was compared; an accepted sheet of each kind and each of these refusals have to be among it, those of a sheet as
    /// `is_reached` asks for, and where 20 is one, long bins that the length calls measure and others that they refuse.
    pub fn report(&self, refusals: impl IntoIterator<Item = usize>) {
        println!("{}", self.tally);
        for (kind, counts) in self.tally.kinds() {
            for (name, count) in counts {
                assert!(count > 0, "{kind}: none is {name}");
            }
        }
        for number in refusals {
            assert!(self.tally.refused[number] > 0, "refusal {number} was never reached");
            if !OF_LENGTH.contains(&number) {
                self.is_reached(number);
            }
            for (name, count) in TOLD.iter().zip(self.tally.long) {
                assert!(number != 20 || count > 0, "the length calls never tell {name}");
            }
        }
    }

    /// A sheet with that refusal was also made blank, and there was a page call with each buffer for it, a shell patch call, also with 11
    /// for the given depth in the place of 17 and 12, and a call with a list of pressures.
    fn is_reached(&self, number: usize) {
        let blank = self.tally.blank_refused[number] > 0;
        assert!(blank, "refusal {number} was never reached with a blank factor");
        for (buffer, count) in self.tally.page_calls(number) {
            assert!(count > 0, "refusal {number}: no page buffer is {buffer}");
        }
        let patches = self.tally.patches[number];
        assert!(patches[number] > 0, "refusal {number}: no shell patch call");
        let first = ![17, 12].contains(&number) || patches[11] > 0;
        assert!(first, "refusal {number}: no given depth is over V");
        let depths = self.tally.depths[number][number] > 0;
        assert!(depths, "refusal {number}: no call with a list of pressures");
    }

    /// Compares any bytes; `lengths` are those of the lists that a refused sheet is lent with.
    pub fn sheet(&mut self, bytes: &[u8], lengths: &[usize]) -> Outcome {
        match parse(bytes) {
            Ok(silo) => {
                assert!(silo.sheet() == bytes, "a sheet is written as it is read");
                self.accepted(&silo)
            }
            Err(refusal) => self.refused(bytes, refusal, lengths),
        }
    }

    /// A refused sheet, also made blank, and of six records also with a headroom of 0.
    fn refused(&mut self, bytes: &[u8], refusal: u64, lengths: &[usize]) -> Outcome {
        self.refusal(bytes, refusal, lengths)?;
        self.tally.refused[refusal as usize] += 1;
        if refusal == 20 {
            self.tally.long[usize::from(measure(bytes).is_err())] += 1;
        }
        self.refused_blank(bytes, lengths)?;
        match records(bytes) {
            Ok(silo) => self.zero_headroom(&silo, lengths),
            Err(_) => Ok(()),
        }
    }

    /// The number from every call for loads, and each list and buffer as it was. A sheet that is measured is also lent lists of the length
    /// due, and of one less and one more.
    fn refusal(&mut self, bytes: &[u8], refusal: u64, lengths: &[usize]) -> Outcome {
        let length = self.told(bytes)?;
        beside_length(bytes, refusal, length)?;
        let due = measure(bytes).map(|silo| silo.answers_length());
        let round = due.into_iter().flat_map(|due| [due - 1, due, due + 1]);
        let mut lengths = lengths.iter().copied().chain(round);
        lengths.try_for_each(|length| self.untouched(bytes, refusal, length))?;
        self.pages(bytes, Err(refusal), EACH)?;
        self.patches(bytes, refusal)?;
        self.depths(bytes, Err(refusal))
    }

    /// What the length call tells, which is as due.
    fn told(&self, bytes: &[u8]) -> Result<u64, Difference> {
        let (length, due) = (self.calls.answers_length(bytes)?, told(bytes, Silo::answers_length));
        expect(length == due, bytes, || format!("answers_length {length}, {due} due"))?;
        Ok(length)
    }

    /// A refused sheet with a whole product record, its factor made blank: still refused, and alike with 135 and 155, since each of these
    /// meets rule 7; or accepted, where its factor alone was wrong.
    fn refused_blank(&mut self, bytes: &[u8], lengths: &[usize]) -> Outcome {
        let sheets = WRITTEN.map(|factor| with_factor(bytes, factor));
        let [Some(blank), ..] = &sheets else {
            return Ok(());
        };
        match parse(blank) {
            Ok(silo) => self.blank_factor(&silo),
            Err(refusal) => {
                self.tally.blank_refused[refusal as usize] += 1;
                sheets.iter().flatten().try_for_each(|sheet| self.refusal(sheet, refusal, lengths))
            }
        }
    }

    /// An accepted sheet, its factor made blank: the same list as with 155, and beside 135 no smaller p_he, p_p and strakes, all else
    /// being the same.
    pub fn blank_factor(&mut self, silo: &Silo) -> Outcome {
        let silos = WRITTEN.map(|factor| Silo { factor: factor.into(), ..silo.clone() });
        let bytes = silos[0].sheet();
        let [blank, soft, careful] = silos.each_ref().map(|silo| self.answers(silo));
        let (blank, soft) = (blank?, soft?);
        expect(blank == careful?, &bytes, || "a blank factor's list is not that of 155".into())?;
        let discharge = Answers {
            rows: vec![array::from_fn(|load| [P_HE, P_P].contains(&load)); blank.rows.len()],
            bottom: vec![false; blank.bottom.len()],
            strakes: vec![true; blank.strakes.len()],
        };
        let pairs = blank.list(COLUMNS).into_iter().zip(soft.list(COLUMNS));
        let numbers = pairs.zip(discharge.list(COLUMNS));
        for (i, ((with_blank, with_soft), discharge)) in numbers.enumerate() {
            let holds = with_blank == with_soft || discharge && with_blank > with_soft;
            expect(holds, &bytes, || {
                format!("number {i} is {with_blank} with a blank factor, {with_soft} with 135")
            })?;
        }
        self.tally.beside[usize::from(blank != soft)] += 1;
        self.blank_patches(&silos)?;
        self.blank_depths(&silos, &blank)
    }

    /// Six records, accepted or not, and the same with a headroom of 0: all calls answer alike, and leave alike lists and buffers.
    fn zero_headroom(&mut self, silo: &Silo, lengths: &[usize]) -> Outcome {
        if silo.headroom.is_some() {
            return Ok(());
        }
        let (six, seven) = (silo.sheet(), Silo { headroom: Some(0), ..silo.clone() }.sheet());
        let alike = self.calls.answers_length(&six)? == self.calls.answers_length(&seven)?;
        expect(alike, &seven, || "answers_length differs with a headroom of 0".into())?;
        for length in lengths {
            let alike = self.calls.loads(&six, *length)? == self.calls.loads(&seven, *length)?;
            expect(alike, &seven, || format!("list of {length} differs with a headroom of 0"))?;
        }
        self.same_pages(&six, &seven, page::length(silo))?;
        self.same_patches(&six, &seven, silo.foot())?;
        self.same_depths(&six, &seven)?;
        self.tally.zero_headrooms += 1;
        Ok(())
    }

    fn untouched(&self, bytes: &[u8], refusal: u64, length: usize) -> Outcome {
        let (answer, list) = self.calls.loads(bytes, length)?;
        expect(u64::from(answer) == refusal, bytes, || {
            format!("list of {length}: answer {answer}, refusal {refusal} due")
        })?;
        let same = list.iter().all(|n| *n == UNTOUCHED);
        expect(same, bytes, || format!("refusal {refusal} changed the list of {length}"))
    }

    /// The numbers of an accepted sheet's list, which its page has too.
    pub fn answers(&mut self, silo: &Silo) -> Result<Answers<u64>, Difference> {
        self.answers_and_pages(silo, EXACT)
    }

    /// The same, the page call made with each of these buffers.
    fn answers_and_pages(
        &mut self,
        silo: &Silo,
        buffers: Range<usize>,
    ) -> Result<Answers<u64>, Difference> {
        let bytes = silo.sheet();
        self.told(&bytes)?;
        let (answer, list) = self.calls.loads(&bytes, silo.answers_length())?;
        expect(answer == 0, &bytes, || format!("answer {answer} for an accepted sheet"))?;
        let list: Vec<u64> = list.into_iter().map(u64::from).collect();
        let answers = Answers::read(COLUMNS, silo.depths.len(), &list);
        self.pages(&bytes, Ok((silo, &answers)), buffers)?;
        Ok(answers)
    }

    /// An accepted sheet, beside one that lists its lower edges: the last of them is V.
    pub fn accepted(&mut self, silo: &Silo) -> Outcome {
        let bytes = silo.sheet();
        let at_edges = Silo { depths: silo.edges(), ..silo.clone() };
        let (listed, edges) = (self.answers_and_pages(silo, EACH)?, self.answers(&at_edges)?);
        let fillings: Vec<Filling> =
            at_edges.depths.iter().map(|z| formulas::filling(silo, *z)).collect();
        for (row, z) in listed.rows.iter().zip(&silo.depths) {
            match at_edges.depths.iter().position(|edge| edge == z) {
                Some(i) => self.row(silo, row, *z, &fillings[i])?,
                None => self.row(silo, row, *z, &formulas::filling(silo, *z))?,
            }
        }
        for (row, (z, filling)) in edges.rows.iter().zip(at_edges.depths.iter().zip(&fillings)) {
            self.row(silo, row, *z, filling)?;
        }
        let same = listed.bottom == edges.bottom && listed.strakes == edges.strakes;
        expect(same, &bytes, || "bottom or strakes differ with the listed depths".into())?;
        judge_bottom(silo, &listed.bottom, edges.rows[edges.rows.len() - 1][P_VF], &fillings)?;
        judge_strakes(silo, &listed.strakes, &edges.rows, &fillings)?;
        let due = silo.answers_length();
        for length in [0, due - 1, due + 1, 2 * due] {
            self.untouched(&bytes, 14, length)?;
            self.tally.refused[14] += 1;
        }
        self.patches(&bytes, 0)?;
        self.depths(&bytes, Ok(&listed))?;
        let all = at_load_depths(silo, [listed.rows, edges.rows].concat());
        self.never_falls(&bytes, all, &[P_HF, P_WF, P_VF, P_HE, P_WE, P_P])?;
        self.zero_headroom(silo, &[due, due + 1])?;
        self.blank_factor(silo)?;
        self.tally.shapes[shape(silo)] += 1;
        self.tally.sections[section(silo)] += 1;
        self.tally.headrooms[headroom(silo)] += 1;
        self.tally.several_depths += u64::from(silo.depths.len() > 1);
        self.tally.blanks[blank(silo)] += u64::from(silo.factor == 0);
        self.tally.strakes += silo.strakes.len() as u64;
        Ok(())
    }

    /// The rows that an accepted sheet lists.
    fn listed(&mut self, silo: &Silo) -> Result<Vec<AtDepth>, Difference> {
        Ok(at_load_depths(silo, self.answers(silo)?.rows))
    }

    /// Two accepted sheets with equal first two records: the filling pressures, which section, product and load depth alone decide. The
    /// discharge loads rest on h too, in which the sheets may differ; the patches and the depths for pressures have an order where
    /// their factors do.
    pub fn pair(&mut self, one: &Silo, other: &Silo) -> Outcome {
        let both = [self.listed(one)?, self.listed(other)?].concat();
        self.never_falls(&[one.sheet(), other.sheet()].concat(), both, &[P_HF, P_WF, P_VF])?;
        self.pair_patches(one, other)?;
        self.pair_depths(one, other)?;
        self.tally.pairs += 1;
        self.tally.unlike_pairs += u64::from(Discharge::of(one) != Discharge::of(other));
        self.tally.unlike_headrooms += u64::from(one.g() != other.g());
        self.tally.blank_pairs += u64::from(one.factor == 0);
        Ok(())
    }

    /// An accepted sheet, and one of the same section and product without headroom that lists its load depths: the same filling pressures
    /// and P_w.
    pub fn level(&mut self, silo: &Silo, level: &Silo) -> Outcome {
        let (under, level_rows) = (self.listed(silo)?, self.listed(level)?);
        for (depth, row) in under {
            let filling = &row[P_HF..=P_W];
            let same =
                level_rows.iter().any(|(z, at_z)| *z == depth && &at_z[P_HF..=P_W] == filling);
            expect(same, &[silo.sheet(), level.sheet()].concat(), || {
                format!("filling at {} differs from that at {depth} of a level silo", row[Z])
            })?;
        }
        self.tally.levels += u64::from(silo.g() > 0);
        Ok(())
    }

    /// Nothing falls with the load depth, and equal ones have equal numbers, of those loads. P_w is not among them, since document 01
    /// asks this of pressures; it is only counted. On one sheet the load depth never falls with z.
    fn never_falls(&mut self, bytes: &[u8], mut rows: Vec<AtDepth>, loads: &[usize]) -> Outcome {
        rows.sort();
        for pair in rows.windows(2) {
            let [(upper, above), (lower, below)] = [pair[0], pair[1]];
            self.tally.line_falls += u64::from(above[P_W] > below[P_W]);
            for load in loads {
                let (above, below) = (above[*load], below[*load]);
                let name = LOADS[*load];
                expect(above <= below, bytes, || {
                    format!("{name} falls between the load depths {upper} and {lower}")
                })?;
                let differs = upper == lower && above != below;
                expect(!differs, bytes, || format!("{name} has two values at load depth {upper}"))?;
            }
        }
        Ok(())
    }

    fn row(&mut self, silo: &Silo, row: &Row, depth: u64, exact: &Filling) -> Outcome {
        let [z, p_hf, p_wf, _, line, p_he, p_we, p_p] = *row;
        let named = |load: usize| format!("{} at depth {depth}", LOADS[load]);
        expect_of(z == depth, silo, || format!("z is {z} at depth {depth}"))?;
        let zeros = silo.load_depth(depth) > 0 || row[P_HF..] == [0; 7];
        expect_of(zeros, silo, || format!("load depth 0 has {row:?}"))?;
        let pressures =
            [(P_HF, &exact.horizontal), (P_WF, &exact.friction), (P_VF, &exact.vertical)];
        for (load, pressure) in pressures {
            band(silo, &named(load), row[load], pressure, 2)?;
            let tight = pressure.plus(&Real::exactly(fraction(65, 64)));
            self.tally.pressures += 1;
            self.tally.tight += u64::from(!tight.is_at_most(&whole(row[load])));
        }
        band(silo, &named(P_W), line, &exact.line, 2)?;

        let (Discharge { c_h, c_w }, patch) = (Discharge::of(silo), formulas::patch(silo));
        made(silo, &named(P_HE), p_he, &whole(p_hf).times(&c_h))?;
        made(silo, &named(P_WE), p_we, &whole(p_wf).times(&c_w))?;
        made(silo, &named(P_P), p_p, &whole(p_he).times(&patch))?;
        let horizontal = exact.horizontal.times(&c_h);
        band(silo, &named(P_HE), p_he, &horizontal, 5)?;
        band(silo, &named(P_WE), p_we, &exact.friction.times(&c_w), 4)?;
        band(silo, &named(P_P), p_p, &horizontal.times(&patch), 3)?;
        self.tally.rows += 1;
        if silo.g() > 0 {
            let place = usize::from(depth >= silo.g()) + usize::from(depth > silo.g());
            self.tally.places[place] += 1;
        }
        Ok(())
    }

    /// The catalogue call for any row, wall and buffer; tells its answer.
    pub fn catalogue(&self, row: u32, wall: u32, length: usize) -> Result<u32, Difference> {
        let (answer, buffer) = self.calls.catalogue(row, wall, length)?;
        let (due, bytes) = match catalogue::record(row, wall, length) {
            Ok(record) => (0, record),
            Err(refusal) => (refusal, vec![UNTOUCHED_BYTE; length]),
        };
        expect(answer == due && buffer == bytes, &bytes, || {
            let call = format!("catalogue row {row}, wall {wall}, buffer of {length}");
            format!("{call}: answer {answer} with {buffer:?}, {due} with {bytes:?} due")
        })?;
        Ok(answer)
    }

    /// The governing call for any two lists; tells its answer.
    pub fn governing(&self, first: &[u32], second: &[u32]) -> Result<u32, Difference> {
        let (answer, due) =
            (self.calls.governing(first, second)?, governing::answer(first, second));
        expect(answer == due, &[], || {
            format!("governing of {first:?} and {second:?}: answer {answer}, {due} due")
        })?;
        Ok(answer)
    }
}

/// Whatever the calls judge by: a refusal for loads is the one that the length call tells, or 20; it is 20 where that tells a length.
fn beside_length(bytes: &[u8], refusal: u64, told: u64) -> Outcome {
    expect([told, 20].contains(&refusal), bytes, || {
        format!("refusal {refusal}, while the length call tells {told}")
    })
}

/// The silo that a call replied to by its list; or none, where it answered the refusal due and its list is as it was.
fn replied_to<T: PartialEq>(
    bytes: &[u8],
    (answer, list): (u32, &[T]),
    untouched: T,
    judged: Result<Silo, u64>,
    call: impl Fn() -> String,
) -> Result<Option<Silo>, Difference> {
    let due = judged.as_ref().err().copied().unwrap_or(0);
    expect(u64::from(answer) == due, bytes, || format!("{}: answer {answer}, {due} due", call()))?;
    let same = due == 0 || list.iter().all(|number| *number == untouched);
    expect(same, bytes, || format!("{}: answer {answer} changed the list", call()))?;
    Ok(judged.ok())
}

fn at_load_depths(silo: &Silo, rows: Vec<Row>) -> Vec<AtDepth> {
    rows.into_iter().map(|row| (silo.load_depth(row[Z]), row)).collect()
}

/// What holds of a silo, whose sheet is written for a difference alone.
fn expect_of(holds: bool, silo: &Silo, what: impl FnOnce() -> String) -> Outcome {
    if holds {
        return Ok(());
    }
    Err(Difference { what: what(), sheet: silo.sheet() })
}

/// A load is its formula over whole numbers, rounded up once.
fn made(silo: &Silo, name: &str, load: u64, formula: &Fraction) -> Outcome {
    expect_of(formula.rounds_up_to(load), silo, || {
        format!("{name} is {load}, {} by its formula", formula.up())
    })
}

/// A load is at or above its exact value, by less than its allowance.
fn band(silo: &Silo, name: &str, load: u64, exact: &Real, allowance: u64) -> Outcome {
    expect_of(exact.is_at_most(&whole(load)), silo, || {
        format!("{name} is {load}, below its exact value")
    })?;
    let above = exact.plus(&Real::exactly(whole(allowance)));
    expect_of(!above.is_at_most(&whole(load)), silo, || {
        format!("{name} is {load}, {allowance} or more above its exact value")
    })
}

/// The ten bottom numbers over p_vf at V, whole and exact; the last filling is the one at V.
fn judge_bottom(silo: &Silo, bottom: &[u64], p_vf: u64, fillings: &[Filling]) -> Outcome {
    let exact = &fillings[fillings.len() - 1].vertical;
    if silo.hopper_height == 0 {
        made(silo, "floor", bottom[0], &whole(p_vf).times(&fraction(12, 10)))?;
        band(silo, "floor", bottom[0], &exact.times(&fraction(12, 10)), 4)?;
        return expect_of(bottom[1..] == [0; 9], silo, || "a flat floor has nine zeros".into());
    }
    let (n3, exact_n3) = (whole_n3(silo), formulas::n3(silo));
    let friction = formulas::hopper_friction(silo);
    for k in 0..5 {
        let (p_n, p_t) = (bottom[k], bottom[5 + k]);
        let share = formulas::hopper_share(silo, k as u64);
        let (normal, traction) = (format!("P_n at k = {k}"), format!("P_t at k = {k}"));
        made(silo, &normal, p_n, &whole(n3).plus(&whole(p_vf).times(&share)))?;
        made(silo, &traction, p_t, &whole(p_n).times(&friction))?;
        let exact_normal = exact_n3.plus(&exact.times(&share));
        band(silo, &normal, p_n, &exact_normal, 8)?;
        band(silo, &traction, p_t, &exact_normal.times(&friction), 10)?;
    }
    Ok(())
}

/// n3, the least n with 0.9·μ·n² ≥ B².
fn whole_n3(silo: &Silo) -> u64 {
    let b = whole(formulas::hopper_filling(silo).up());
    let (squared, friction) = (b.times(&b), formulas::lower_friction(silo));
    least(40, |n| friction.times(&whole(n as u64)).times(&whole(n as u64)) >= squared) as u64
}

/// Each strake's p_he at its lower edge, over p_hf there, whole and exact.
fn judge_strakes(silo: &Silo, strakes: &[u64], edges: &[Row], fillings: &[Filling]) -> Outcome {
    let c_h = Discharge::of(silo).c_h;
    for (i, load) in strakes.iter().enumerate() {
        let name = format!("strake {i}");
        made(silo, &name, *load, &whole(edges[i][P_HF]).times(&c_h))?;
        band(silo, &name, *load, &fillings[i].horizontal.times(&c_h), 5)?;
    }
    Ok(())
}
