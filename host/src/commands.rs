//! The commands, from a file's bytes to what is printed and the exit status.

use crate::check::Check;
use crate::content::Content;
use crate::description::Description;
use crate::files::Kind;
use crate::library::{self, Loads, Refusal, ShellPatch};
use crate::message;
use crate::patch::Patch;
use crate::report::PROGRAM;
use crate::source::{self, Failure, Source, Unread};
use crate::units::Units;
use crate::{catalogue, csv, draw, json, table, text};

/// What a command writes to its output and to standard error, and its exit status.
#[derive(Debug, Default)]
pub struct Outcome {
    pub status: u8,
    pub output: Vec<u8>,
    pub messages: String,
    /// The silo that was read is improbable; the messages say why.
    pub doubtful: bool,
}

pub const REFUSED: u8 = 1;
pub const BAD_USE: u8 = 2;
/// Done with `--strict`, of an improbable silo.
pub const DOUBTFUL: u8 = 3;

impl Outcome {
    /// What is written stays as it is.
    pub fn strict(self) -> Outcome {
        let status = if self.status == 0 && self.doubtful { DOUBTFUL } else { self.status };
        Outcome { status, ..self }
    }
}

#[derive(Clone, Copy, Debug, PartialEq, Eq)]
pub enum Format {
    Table,
    Csv,
    /// For spreadsheets that write decimals with a comma.
    CsvSemicolon,
    Json,
}

/// The kind of file that a command's output is; with a depth, of the patch there.
pub fn kind(command: &str, format: Format, depth: Option<u32>) -> Kind {
    match (command, format) {
        ("draw", _) if depth.is_some() => Kind::PatchDrawing,
        ("draw", _) => Kind::Drawing,
        ("patch", Format::Csv | Format::CsvSemicolon) => Kind::PatchCsv,
        ("patch", Format::Json) => Kind::PatchJson,
        ("patch", _) => Kind::Patch,
        ("sheet", _) => Kind::Sheet,
        ("page", _) => Kind::Page,
        ("explain", _) => Kind::Text,
        ("catalogue", Format::Csv | Format::CsvSemicolon) => Kind::CatalogueCsv,
        ("catalogue", Format::Json) => Kind::CatalogueJson,
        ("catalogue", Format::Table) => Kind::Catalogue,
        (_, Format::Table) => Kind::Table,
        (_, Format::Csv | Format::CsvSemicolon) => Kind::Csv,
        (_, Format::Json) => Kind::Json,
    }
}

pub fn bad_use(messages: String) -> Outcome {
    Outcome { status: BAD_USE, messages, ..Outcome::default() }
}

pub fn said(page: &str) -> Outcome {
    done(page)
}

fn done(output: impl Into<Vec<u8>>) -> Outcome {
    Outcome { output: output.into(), ..Outcome::default() }
}

/// What is written of a silo, and what is improbable in it.
fn told(file: &str, source: &Source, output: impl Into<Vec<u8>>) -> Outcome {
    let doubts = source.doubts();
    let messages: String =
        doubts.map(|(line, doubt)| message::at(file, line, "", &doubt.shown())).collect();
    Outcome { doubtful: !messages.is_empty(), messages, ..done(output) }
}

fn failed(file: &str, failure: &Failure) -> Outcome {
    let status = match failure {
        Failure::Unread(_) => BAD_USE,
        Failure::Refused(_) => REFUSED,
    };
    Outcome { status, messages: failure.lines(file), ..Outcome::default() }
}

/// With JSON a refusal, or what is wrong with a text, is an object of the output.
fn failed_in(format: Format, file: &str, failure: &Failure) -> Outcome {
    match (format, failure) {
        (Format::Json, Failure::Refused(refused)) => {
            Outcome { status: REFUSED, ..done(refused.json(file)) }
        }
        (Format::Json, Failure::Unread(unread)) => {
            Outcome { status: BAD_USE, ..done(unread.json(file)) }
        }
        _ => failed(file, failure),
    }
}

/// A file that cannot be read, and why; with JSON an object of the output.
pub fn unreadable(file: &str, why: &str, format: Format) -> Outcome {
    match format {
        Format::Json => {
            let unread = Unread::file(why);
            Outcome { status: BAD_USE, ..done(unread.json(file)) }
        }
        _ => bad_use(format!("silo: {file}: {why}\n")),
    }
}

/// Whether a silo can be read and calculated, and its lines as they were understood.
pub fn check(file: &str, bytes: &[u8], format: Format) -> Outcome {
    let verdict = calculated(bytes).map(|(source, _)| source);
    let outcome = match &verdict {
        Ok(source) => told(file, source, []),
        Err(failure) => Outcome { messages: String::new(), ..failed(file, failure) },
    };
    Outcome { output: checked(&Check::of(file, bytes, verdict), format), ..outcome }
}

/// The same of a file that cannot be read, as JSON.
pub fn check_unreadable(file: &str, why: &str) -> Outcome {
    let failure = Failure::Unread(Unread::file(why));
    let check = Check::of_none(file, failure);
    Outcome { status: BAD_USE, ..done(checked(&check, Format::Json)) }
}

fn checked(check: &Check, format: Format) -> Vec<u8> {
    let said = if format == Format::Json { check.json() } else { check.text() };
    said.into_bytes()
}

/// Table 7.1.
pub fn catalogue(format: Format) -> Outcome {
    done(match format {
        Format::Csv => catalogue::csv(csv::COMMA),
        Format::CsvSemicolon => catalogue::csv(csv::SEMICOLON),
        Format::Json => catalogue::json(),
        Format::Table => format!("{}\n{PROGRAM}\n", catalogue::table()),
    })
}

/// The silo of a file with its loads.
fn calculated(bytes: &[u8]) -> Result<(Source, Loads), Failure> {
    let source = source::open(bytes)?;
    match Loads::of(&source.sheet, source.silo.strakes.len()) {
        Ok(loads) => Ok((source, loads)),
        Err(refusal) => Err(source.refused(refusal)),
    }
}

pub fn loads(file: &str, bytes: &[u8], format: Format, units: Units) -> Outcome {
    let said = calculated(bytes).and_then(|(source, loads)| {
        let report = source.report(file, units)?;
        let page = match format {
            Format::Table => table::page(&report, &loads),
            Format::Csv => csv::page(&report, &loads, csv::COMMA),
            Format::CsvSemicolon => csv::page(&report, &loads, csv::SEMICOLON),
            Format::Json => json::page(&report, &loads),
        };
        Ok(told(file, &source, page))
    });
    said.unwrap_or_else(|failure| failed_in(format, file, &failure))
}

/// The load page, the library's bytes and nothing else. A refusal is on the output as well as in the messages.
pub fn page(file: &str, bytes: &[u8]) -> Outcome {
    let page = source::open(bytes).and_then(|source| {
        let page = library::page(&source.sheet).map_err(|refusal| source.refused(refusal))?;
        Ok(told(file, &source, page))
    });
    match page {
        Ok(outcome) => outcome,
        Err(failure) => Outcome { output: failure.page().into(), ..failed(file, &failure) },
    }
}

/// The same of a silo that may be refused, with a note on a rectangle that is too long for loads. Other refused silos have no doubts: they
/// have to be mended first.
fn noted(file: &str, source: &Source, output: impl Into<Vec<u8>>) -> Outcome {
    let mut outcome = match library::answers_length(&source.sheet) {
        Ok(_) => told(file, source, output),
        Err(_) => done(output),
    };
    if library::verdict(&source.sheet) == Err(Refusal::UNEQUAL_SIDES) {
        let refused = failed(file, &source.refused(Refusal::UNEQUAL_SIDES)).messages;
        let note = "note: loads, page and drawing of this silo are refused:";
        outcome.messages += &format!("{note}\n{refused}");
    }
    outcome
}

/// The sheet of a text. It is written even where the library refuses it.
pub fn sheet(file: &str, bytes: &[u8]) -> Outcome {
    if let Content::Sheet = Content::of(bytes) {
        return bad_use(format!(
            "{file}: a sheet of bytes, or empty; silo sheet reads a silo's text\n"
        ));
    }
    match source::open(bytes) {
        Err(failure) => failed(file, &failure),
        Ok(source) => match library::answers_length(&source.sheet) {
            Ok(_) => {
                let outcome = noted(file, &source, source.sheet.clone());
                Outcome { messages: outcome.messages + source.unsaid(), ..outcome }
            }
            Err(refusal) => {
                let mut outcome = failed(file, &source.refused(refusal));
                outcome.messages += "the sheet has the numbers as the text has them\n";
                Outcome { output: source.sheet, ..outcome }
            }
        },
    }
}

/// The text of a sheet of bytes.
pub fn explain(file: &str, bytes: &[u8]) -> Outcome {
    let opened = match Content::of(bytes) {
        Content::Sheet => source::open_sheet(bytes),
        Content::Foreign(what) => Err(Failure::foreign(what)),
        Content::Text => {
            return bad_use(format!("{file}: text; silo explain reads a sheet of bytes\n"))
        }
    };
    match opened {
        Ok(source) => noted(file, &source, text::write(&source.silo)),
        Err(failure) => failed(file, &failure),
    }
}

pub fn draw(file: &str, bytes: &[u8], units: Units) -> Outcome {
    let drawn = calculated(bytes).and_then(|(source, loads)| {
        let silo = with_more_depths(&source.silo);
        let curves = Loads::of(&silo.to_bytes(), silo.strakes.len());
        let curves = curves.map_err(|refusal: Refusal| source.refused(refusal))?;
        Ok(told(file, &source, draw::page(&source.report(file, units)?, &loads, &curves)))
    });
    drawn.unwrap_or_else(|failure| failed(file, &failure))
}

/// The patch of a file's silo, `depth` mm below the brim, as `say` writes it.
fn patched(
    file: &str,
    bytes: &[u8],
    depth: u32,
    units: Units,
    say: impl Fn(&Patch) -> String,
) -> Result<Outcome, Failure> {
    let source = source::open(bytes)?;
    let shell = ShellPatch::of(&source.sheet, depth);
    let shell = shell.map_err(|refusal| source.patch_refused(refusal, depth))?;
    let page = say(&Patch { report: source.report(file, units)?, depth, shell });
    Ok(told(file, &source, page))
}

/// The patch of a circle; round a shell every `step` degrees, and its force.
pub fn patch(
    file: &str,
    bytes: &[u8],
    (depth, step): (u32, usize),
    format: Format,
    units: Units,
) -> Outcome {
    let said = patched(file, bytes, depth, units, |patch| match format {
        Format::Table => table::patch(patch, step),
        Format::Csv => csv::patch(patch, step, csv::COMMA),
        Format::CsvSemicolon => csv::patch(patch, step, csv::SEMICOLON),
        Format::Json => json::patch(patch, step),
    });
    said.unwrap_or_else(|failure| failed_in(format, file, &failure))
}

pub fn draw_patch(file: &str, bytes: &[u8], depth: u32, units: Units) -> Outcome {
    let drawn = patched(file, bytes, depth, units, draw::patch);
    drawn.unwrap_or_else(|failure| failed(file, &failure))
}

/// The same silo with depths for curves: the strakes' edges, the grain's surface and even steps, at most 200.
fn with_more_depths(silo: &Description) -> Description {
    const STEPS: u64 = 160;
    let wall = silo.wall_height();
    let steps = (0..=STEPS).map(|i| wall * i / STEPS);
    let edges = silo.edges().map(|(_, edge)| edge);
    let depths = steps.chain(edges).chain([silo.headroom.into()]);
    let mut depths: Vec<u32> = depths.map(|z| z as u32).collect();
    depths.sort_unstable();
    depths.dedup();
    Description { depths, ..silo.clone() }
}
