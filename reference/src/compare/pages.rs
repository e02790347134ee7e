//! The comparison of the two page calls.

use super::{beside_length, Comparison};
use crate::answers::{Answers, COLUMNS, ROWS};
use crate::calls::{expect, Difference, Outcome, UNTOUCHED_BYTE};
use crate::page;
use crate::sheet::{records, told, Silo};
use std::ops::Range;

/// Buffers that a page is lent with, by their length beside the page's.
type Buffer = (&'static str, fn(usize) -> usize);
pub const BUFFERS: [Buffer; 5] = [
    ("empty", |_| 0),
    ("a byte short", |due| due - 1),
    ("exact", |due| due),
    ("a byte longer", |due| due + 1),
    ("twice as long", |due| 2 * due),
];
pub const EACH: Range<usize> = 0..BUFFERS.len();
pub const EXACT: Range<usize> = 2..3;

/// The page of one depth and one strake.
const SHORTEST: usize = 73 * 2 + 10 * 11;

/// Digits of the longest number that a field has room for.
pub const DIGITS: usize = 9;

fn digits(number: u64) -> usize {
    number.checked_ilog10().map_or(1, |log| log as usize + 1)
}

/// An accepted silo with the library's answers, or a refusal.
type Listed<'a> = Result<(&'a Silo, &'a Answers<u64>), u64>;

fn silo(listed: Listed<'_>) -> Result<&Silo, u64> {
    listed.map(|(silo, _)| silo)
}

/// The first line of a page that is not as due.
fn unlike(page: &[u8], text: &str) -> String {
    let page = String::from_utf8_lossy(page);
    let mut lines = page.split('\n').zip(text.split('\n')).enumerate();
    match lines.find(|(_, (line, due))| line != due) {
        Some((i, (line, due))) => format!("line {i} is {line:?}, {due:?} due"),
        None => "its lines are as due".into(),
    }
}

impl Comparison<'_> {
    /// The length call, and the page call with each of these buffers. A refused sheet is lent them round the page that its records ask for,
    /// or round the shortest where they cannot be read.
    pub(super) fn pages(&mut self, bytes: &[u8], listed: Listed, buffers: Range<usize>) -> Outcome {
        if self.loads_alone {
            return Ok(());
        }
        let (length, due) = (self.calls.page_length(bytes)?, told(bytes, page::length));
        expect(length == due, bytes, || format!("page_length {length}, {due} due"))?;
        listed.map_or_else(|refusal| beside_length(bytes, refusal, length), |_| Ok(()))?;
        let due = records(bytes).map_or(SHORTEST, |silo| page::length(&silo));
        let text = listed.map(|(_, answers)| page::text(answers)).unwrap_or_default();
        let fits = listed.is_err() || text.len() == due;
        expect(fits, bytes, || "a number of the list has no room in a field".into())?;
        for buffer in buffers {
            let answer = self.page(bytes, listed, &text, BUFFERS[buffer].1(due))?;
            self.tally.pages[listed.err().unwrap_or(0) as usize][buffer] += 1;
            self.tally.refused[18] += u64::from(answer == 18);
        }
        let numbers = listed.map(|(_, answers)| answers.list(COLUMNS)).unwrap_or_default();
        numbers.iter().for_each(|number| self.tally.digits[digits(*number)] += 1);
        Ok(())
    }

    /// The page call with a buffer of that length; tells its answer. The page that it writes, read by its places alone, has line by line the
    /// numbers of the list as it was before C-18, and is the text due; all else of the buffer is as it was.
    fn page(
        &self,
        bytes: &[u8],
        listed: Listed,
        text: &str,
        length: usize,
    ) -> Result<u32, Difference> {
        let (answer, buffer) = self.calls.page(bytes, length)?;
        let due = page::answer(silo(listed), length);
        expect(u64::from(answer) == due, bytes, || {
            format!("page buffer of {length}: answer {answer}, {due} due")
        })?;
        let (page, rest) = buffer.split_at(if due == 0 { text.len() } else { 0 });
        let same = rest.iter().all(|byte| *byte == UNTOUCHED_BYTE);
        expect(same, bytes, || format!("answer {answer} changed bytes of the buffer of {length}"))?;
        if let (0, Ok((silo, answers))) = (due, listed) {
            let numbers = page::numbers(page, silo.depths.len());
            expect(numbers.is_some_and(|numbers| numbers == answers.list(ROWS)), bytes, || {
                format!(
                    "the page does not read as the list, depth by depth; {}",
                    unlike(page, text)
                )
            })?;
            expect(page == text.as_bytes(), bytes, || unlike(page, text))?;
        }
        Ok(answer)
    }

    /// The page call for an accepted sheet with buffers of these lengths.
    pub fn page_in(&mut self, silo: &Silo, lengths: &[usize]) -> Outcome {
        if self.loads_alone {
            return Ok(());
        }
        let (bytes, answers) = (silo.sheet(), self.answers(silo)?);
        let text = page::text(&answers);
        lengths.iter().try_for_each(|length| {
            self.page(&bytes, Ok((silo, &answers)), &text, *length).map(|_| ())
        })
    }

    /// Two sheets that mean the same: both page calls answer alike, and leave alike buffers.
    pub(super) fn same_pages(&self, one: &[u8], other: &[u8], due: usize) -> Outcome {
        if self.loads_alone {
            return Ok(());
        }
        let alike = self.calls.page_length(one)? == self.calls.page_length(other)?;
        expect(alike, other, || "page_length differs with a headroom of 0".into())?;
        for length in [due - 1, due] {
            let alike = self.calls.page(one, length)? == self.calls.page(other, length)?;
            expect(alike, other, || format!("page of {length} differs with a headroom of 0"))?;
        }
        Ok(())
    }
}
