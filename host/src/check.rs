//! `silo check`: whether a silo can be read and calculated, what is wrong with it, and its lines as they were understood.

use crate::content::{self, Content};
use crate::description::Description;
use crate::doubt::Doubt;
use crate::json;
use crate::message::words;
use crate::report::{wrapped, Report, PROGRAM};
use crate::source::{Failure, Source};
use crate::text::{self, Understood};
use crate::units::Units;

/// What is known of a file.
pub struct Check<'a> {
    file: &'a str,
    verdict: Result<Source, Failure>,
    lines: Vec<Understood>,
}

impl<'a> Check<'a> {
    /// Of a file's bytes, and the silo in them where it has loads.
    pub fn of(file: &'a str, bytes: &[u8], verdict: Result<Source, Failure>) -> Check<'a> {
        let lines = match Content::of(bytes) {
            Content::Text => content::text(bytes).map(text::understood).unwrap_or_default(),
            Content::Sheet => of_sheet(bytes),
            Content::Foreign(_) => Vec::new(),
        };
        Check { file, verdict, lines }
    }

    /// Of a file that cannot be opened.
    pub fn of_none(file: &'a str, failure: Failure) -> Check<'a> {
        Check { file, verdict: Err(failure), lines: Vec::new() }
    }

    /// For a person: the verdict, what is wrong, and the lines.
    pub fn text(&self) -> String {
        let mut page = match &self.verdict {
            Ok(source) => {
                let product = self.report(source).map(|report| report.product());
                let product = product.into_iter().flat_map(|product| wrapped(&product, WIDTH));
                let product: String = product.map(|line| line + "\n").collect();
                format!("{}: {}\n{product}", self.file, words::ACCEPTED)
            }
            Err(failure) => failure.lines(self.file),
        };
        if !self.lines.is_empty() {
            page += &format!("\n{}\n", words::UNDERSTOOD);
        }
        page.extend(self.lines.iter().map(shown));
        page
    }

    fn report<'b>(&'b self, source: &'b Source) -> Option<Report<'b>> {
        source.report(self.file, Units::Whole).ok()
    }

    /// For a program: the same as an object.
    pub fn json(&self) -> String {
        let report = self.verdict.as_ref().ok().and_then(|source| self.report(source));
        let mut fields = vec![
            ("program", json::string(PROGRAM)),
            ("file", json::string(self.file)),
            ("status", json::string(self.status())),
        ];
        fields.extend(match &self.verdict {
            Ok(_) => Failure::none(),
            Err(failure) => failure.fields(),
        });
        let lines = json::lines(self.lines.iter().map(object));
        let doubts = self.verdict.iter().flat_map(Source::doubts);
        let doubts = json::lines(doubts.map(|(line, doubt)| doubted(line, &doubt)));
        let made = report.map_or("[]".to_string(), |report| json::made_with(report.silo));
        fields.extend([("lines", lines), ("doubts", doubts), ("made_with", made)]);
        json::document(&fields)
    }

    fn status(&self) -> &'static str {
        match &self.verdict {
            Ok(_) => "accepted",
            Err(Failure::Refused(_)) => "refused",
            Err(Failure::Unread(_)) => "unreadable",
        }
    }
}

/// The numbers of a sheet as lines, which have no place in a text.
fn of_sheet(bytes: &[u8]) -> Vec<Understood> {
    let lines = Description::from_bytes(bytes).map(|silo| text::understood(&text::write(&silo)));
    let lines = lines.into_iter().flatten();
    lines.map(|line| Understood { line: None, comment: String::new(), ..line }).collect()
}

/// A doubt with its line.
fn doubted(line: Option<usize>, doubt: &Doubt) -> String {
    let line = ("line", json::or_null(line.map(|line| line.to_string())));
    json::object(&[&[line], &json::doubt_fields(doubt)[..]].concat())
}

/// Characters of a line for a person.
const WIDTH: usize = 80;
/// Before the value.
const NAMES: usize = 28;

/// Line, name and value with its unit, for a person.
fn shown(line: &Understood) -> String {
    let number = line.line.map(|line| line.to_string()).unwrap_or_default();
    let value = match &line.value {
        Some(value) => format!("{value} {}", line.unit),
        None => words::not_understood(&line.written),
    };
    let mut values = wrapped(&value, WIDTH - NAMES).into_iter();
    let first =
        format!("{number:>4}  {:<22}{}", line.name.word(), values.next().unwrap_or_default());
    let others = values.map(|value| format!("{:NAMES$}{value}", ""));
    let lines = std::iter::once(first.trim_end().to_string()).chain(others);
    lines.map(|line| line + "\n").collect()
}

fn object(line: &Understood) -> String {
    json::object(&[
        ("line", json::or_null(line.line.map(|line| line.to_string()))),
        ("name", json::string(line.name.word())),
        ("value", json::or_null(line.value.as_deref().map(json::string))),
        ("unit", json::string(line.unit)),
        ("comment", json::string(&line.comment)),
        ("written", json::string(&line.written)),
    ])
}
