//! The kinds of file that the tool writes: their names' endings, and how one is known by its bytes.

use crate::csv;
use crate::library::{self, Refusal};
use crate::patch;
use crate::report::PROGRAM;
use crate::text;
use std::ffi::OsStr;
use std::path::Path;

#[derive(Clone, Copy, Debug, PartialEq, Eq)]
pub enum Kind {
    Drawing,
    Sheet,
    Table,
    /// The load page.
    Page,
    Csv,
    Json,
    /// The patch of a circle: its drawing, its table, and the same as CSV and JSON.
    PatchDrawing,
    Patch,
    PatchCsv,
    PatchJson,
    /// Table 7.1, and the same as CSV and as JSON.
    Catalogue,
    CatalogueCsv,
    CatalogueJson,
    /// A silo's text.
    Text,
}

type Test = fn(&str) -> bool;

impl Kind {
    pub fn word(self) -> &'static str {
        match self {
            Kind::Drawing | Kind::PatchDrawing => "drawing",
            Kind::Sheet => "sheet",
            Kind::Table | Kind::Patch => "table",
            Kind::Page => "page",
            Kind::Csv | Kind::PatchCsv | Kind::CatalogueCsv => "CSV",
            Kind::Json | Kind::PatchJson | Kind::CatalogueJson => "JSON",
            Kind::Catalogue => "catalogue",
            Kind::Text => "text",
        }
    }

    pub fn with_article(self) -> &'static str {
        match self {
            Kind::Drawing => "a drawing",
            Kind::Sheet => "a sheet",
            Kind::Table => "a table of loads",
            Kind::Page => "a load page",
            Kind::Csv => "CSV of loads",
            Kind::Json => "JSON of loads",
            Kind::PatchDrawing => "a drawing of a patch",
            Kind::Patch => "a table of a patch",
            Kind::PatchCsv => "CSV of a patch",
            Kind::PatchJson => "JSON of a patch",
            Kind::Catalogue => "the catalogue",
            Kind::CatalogueCsv => "the catalogue's CSV",
            Kind::CatalogueJson => "the catalogue's JSON",
            Kind::Text => "a silo's text",
        }
    }

    pub fn is_csv(self) -> bool {
        matches!(self, Kind::Csv | Kind::PatchCsv | Kind::CatalogueCsv)
    }

    /// All but table 7.1.
    pub fn is_of_a_silo(self) -> bool {
        !matches!(self, Kind::Catalogue | Kind::CatalogueCsv | Kind::CatalogueJson)
    }

    /// The first is offered.
    fn endings(self) -> &'static [&'static str] {
        match self {
            Kind::Drawing | Kind::PatchDrawing => &["svg"],
            Kind::Sheet => &["sheet"],
            Kind::Table | Kind::Patch | Kind::Catalogue => &["txt"],
            Kind::Page => &["page", "txt"],
            Kind::Csv | Kind::PatchCsv | Kind::CatalogueCsv => &["csv"],
            Kind::Json | Kind::PatchJson | Kind::CatalogueJson => &["json"],
            Kind::Text => &["silo", "txt"],
        }
    }

    /// A name has an ending of this kind, in capitals or not, or none.
    pub fn fits(self, name: &OsStr) -> Result<(), String> {
        let path = Path::new(name);
        let fits =
            |ending: &OsStr| self.endings().iter().any(|due| ending.eq_ignore_ascii_case(due));
        if path.extension().is_none_or(fits) {
            return Ok(());
        }
        let due: Vec<String> = self.endings().iter().map(|ending| format!(".{ending}")).collect();
        let offer = path.with_extension(self.endings()[0]);
        Err(format!(
            "{}: the name of {} ends in {}, such as {}",
            name.display(),
            self.with_article(),
            due.join(" or "),
            offer.display()
        ))
    }

    /// The kind of a file that the tool has written, or of a silo's text, which is written by hand.
    pub fn of(bytes: &[u8]) -> Option<Kind> {
        if is_sheet(bytes) {
            return Some(Kind::Sheet);
        }
        let text = std::str::from_utf8(bytes).ok()?;
        let text = text.strip_prefix('\u{feff}').unwrap_or(text);
        let tests: [(Kind, Test); 13] = [
            (Kind::PatchDrawing, |text| is_drawing(text) && text.contains(SHELL)),
            (Kind::Drawing, is_drawing),
            (Kind::Json, |text| text.starts_with('{') && text.contains("\"p_he\"")),
            (Kind::CatalogueJson, |text| {
                text.starts_with('{') && text.contains("\"friction_on_concrete_")
            }),
            (Kind::PatchJson, |text| text.starts_with('{') && text.contains("\"band\"")),
            (Kind::PatchCsv, |text| first_cell(text) == "silo" && csv::has_patch(text)),
            (Kind::Csv, |text| first_cell(text) == "silo" && text.contains("p_he")),
            (Kind::CatalogueCsv, |text| first_cell(text) == "row" && text.contains("on steel")),
            (Kind::Catalogue, |text| text.starts_with(CATALOGUE) && ends_with_program(text)),
            (Kind::Page, |text| text.lines().next() == Some(PAGE)),
            (Kind::Patch, |text| has_patch(text) && ends_with_program(text)),
            (Kind::Table, ends_with_program),
            (Kind::Text, text::is_silo),
        ];
        tests.into_iter().find(|(_, test)| test(text)).map(|(kind, _)| kind)
    }
}

/// How table 7.1 starts.
const CATALOGUE: &str = "Table 7.1";
/// What a drawing of a patch has and no other; a person's text has no such quotes.
const SHELL: &str = "class=\"shell\"";
/// The heading of a load page.
const PAGE: &str = "        z      phf      pwf      pvf       PW      phe      pwe       pp";

/// A sheet that the library reads, or one that it refuses for its length or for that of a list, which the tool writes as well.
fn is_sheet(bytes: &[u8]) -> bool {
    let lengths = [Refusal::SHEET_TOO_LONG, Refusal::WRONG_LENGTH];
    let headers: [&[u8]; 2] = [&[4, 0, 1, 0], &[8, 0, 2, 0]];
    headers.iter().any(|header| bytes.starts_with(header))
        && match library::answers_length(bytes) {
            Ok(_) => true,
            Err(refusal) => !refusal.is_of_form() || lengths.contains(&refusal),
        }
}

fn is_drawing(text: &str) -> bool {
    text.starts_with("<svg") && text.contains("ENV 1991-4")
}

/// A line after the file's name describes a patch.
fn has_patch(text: &str) -> bool {
    let describes = |line: &str| patch::HEADINGS.iter().any(|heading| line.starts_with(heading));
    text.lines().skip(1).any(describes)
}

fn first_cell(text: &str) -> &str {
    text.split([',', ';']).next().filter(|cell| text.len() > cell.len()).unwrap_or_default()
}

/// The last line names the program and a version.
fn ends_with_program(text: &str) -> bool {
    let is_digit = |c: char| c.is_ascii_digit();
    let program = PROGRAM.split(is_digit).next().unwrap_or(PROGRAM);
    let last = text.trim_end().lines().last().unwrap_or_default();
    last.strip_prefix(program).is_some_and(|version| version.starts_with(is_digit))
}
