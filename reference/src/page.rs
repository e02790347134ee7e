//! The load page of C-15 of document 02: its text, its length, what its call answers to any sheet and buffer, and what the program prints.

use crate::answers::{Answers, P_HE, P_HF, P_P, P_VF, P_W, P_WE, P_WF, Z};
use crate::sheet::Silo;
use std::fmt::Display;

/// The names of the heading, and the load below each.
const HEADING: [(&str, usize); 8] = [
    ("z", Z),
    ("phf", P_HF),
    ("pwf", P_WF),
    ("pvf", P_VF),
    ("PW", P_W),
    ("phe", P_HE),
    ("pwe", P_WE),
    ("pp", P_P),
];

/// Characters of a field.
const FIELD: usize = 9;

/// The page's bytes: lines of eight fields for the heading and each depth, of one field for each bottom and strake number.
pub fn length(silo: &Silo) -> usize {
    73 * (1 + silo.depths.len()) + 10 * (10 + silo.strakes.len())
}

/// The page call's answer to an accepted sheet, or to a refused one, for a buffer of so many bytes: the sheet's own refusal comes before 18.
pub fn answer(sheet: Result<&Silo, u64>, buffer: usize) -> u64 {
    match sheet {
        Err(refusal) => refusal,
        Ok(silo) if buffer < length(silo) => 18,
        Ok(_) => 0,
    }
}

/// A line of fields, each right-justified.
pub fn line(fields: &[impl Display]) -> String {
    let fields = fields.iter().map(|field| format!("{field:>FIELD$}"));
    fields.chain(["\n".into()]).collect()
}

/// The page of those answers.
pub fn text(answers: &Answers<u64>) -> String {
    let heading = line(&HEADING.map(|(name, _)| name));
    let rows = answers.rows.iter().map(|row| line(&HEADING.map(|(_, load)| row[load])));
    let below = answers.bottom.iter().chain(&answers.strakes).map(|number| line(&[number]));
    [heading].into_iter().chain(rows).chain(below).collect()
}

/// What the program prints: the page, or the refusal alone.
pub fn printed(page: Result<String, u64>) -> String {
    page.unwrap_or_else(|refusal| format!("REFUSED {refusal}\n"))
}

/// The numbers of a page with so many depths, line by line, read by their places alone; none where a field has no number, or where one of
/// the eight of a line does not begin with a space, so that neighbours run together.
pub fn numbers(page: &[u8], depths: usize) -> Option<Vec<u64>> {
    let mut numbers = Vec::new();
    for (i, line) in page.strip_suffix(b"\n")?.split(|byte| *byte == b'\n').enumerate() {
        let mut fields = line.chunks(FIELD);
        let due = if i <= depths { 8 } else { 1 };
        let apart = due == 1 || fields.clone().all(|field| field[0] == b' ');
        if line.len() != due * FIELD || !apart {
            return None;
        }
        if i > 0 {
            fields.try_for_each(|field| number(field).map(|number| numbers.push(number)))?;
        }
    }
    Some(numbers)
}

fn number(field: &[u8]) -> Option<u64> {
    std::str::from_utf8(field).ok()?.trim_start_matches(' ').parse().ok()
}
