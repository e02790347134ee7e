//! Which silo an output is of, read back from its bytes.

use super::Kind;
use std::path::{Component, Path};

/// What is read from no file has this in place of a file's name.
pub const STANDARD_INPUT: &str = "standard input";
/// Where files lie whose names say nothing, such as /dev/stdin.
const STREAMS: [&str; 2] = ["/dev", "/proc"];

/// A silo by the file that it was read from.
#[derive(Debug, PartialEq, Eq)]
pub struct Silo {
    /// As an output shows it.
    pub file: String,
    /// Without folder and ending: the text and the sheet of a silo have one name.
    name: String,
    /// The innermost first, as far as they are known.
    folders: Vec<String>,
}

impl Silo {
    /// None where the name says nothing.
    pub fn of_file(file: &str) -> Option<Silo> {
        let path = Path::new(file);
        if file == STANDARD_INPUT || STREAMS.iter().any(|folder| path.starts_with(folder)) {
            return None;
        }
        let shown = |part: &std::ffi::OsStr| part.to_string_lossy().into_owned();
        let folders = path.parent()?.components().rev().filter_map(|part| match part {
            Component::Normal(part) => Some(shown(part)),
            _ => None,
        });
        let folders = folders.collect();
        Some(Silo { file: file.to_string(), name: shown(path.file_stem()?), folders })
    }

    /// The silo that an output names. A page, a sheet and a text name none.
    pub fn of_output(kind: Kind, text: &str) -> Option<Silo> {
        match kind {
            Kind::Table | Kind::Patch => Silo::of_file(text.lines().next()?),
            Kind::Csv | Kind::PatchCsv => Silo::of_file(&cell(text)?),
            Kind::Json | Kind::PatchJson => Silo::of_file(&string(text)?),
            Kind::Drawing | Kind::PatchDrawing => match element(text, "desc") {
                Some(file) => Silo::of_file(&file),
                None => Silo::of_title(element(text, "title")?),
            },
            Kind::Sheet | Kind::Page | Kind::Text => None,
            Kind::Catalogue | Kind::CatalogueCsv | Kind::CatalogueJson => None,
        }
    }

    /// The title of a drawing from before, which is the name alone.
    fn of_title(name: String) -> Option<Silo> {
        let known = name != STANDARD_INPUT;
        known.then(|| Silo { file: name.clone(), name, folders: Vec::new() })
    }

    /// The names are equal, and so are the folders as far as both have them.
    pub fn is(&self, other: &Silo) -> bool {
        let mut folders = self.folders.iter().zip(&other.folders);
        self.name == other.name && folders.all(|(one, other)| one == other)
    }
}

/// The file in a CSV's description, without quotes and without the apostrophe before what starts as a formula.
fn cell(text: &str) -> Option<String> {
    let starts = ["\nsilo,file,", "\nsilo;file;"];
    let start = starts.iter().find_map(|start| Some(text.find(start)? + start.len()))?;
    let (rest, separator) = (&text[start..], &text[start - 1..start]);
    let cell = match rest.strip_prefix('"') {
        None => rest.split([separator.chars().next()?, '\r', '\n']).next()?.to_string(),
        Some(quoted) => {
            let quoted = quoted.replace("\"\"", "\u{0}");
            quoted.split('"').next()?.replace('\u{0}', "\"")
        }
    };
    let formula = cell.strip_prefix('\'').filter(|rest| rest.starts_with(['=', '+', '-', '@']));
    Some(formula.unwrap_or(&cell).to_string())
}

/// The file in JSON, whose strings escape quotes, backslashes and control characters.
fn string(text: &str) -> Option<String> {
    let start = "\n  \"file\": \"";
    let mut rest = text[text.find(start)? + start.len()..].chars();
    let mut file = String::new();
    loop {
        match rest.next()? {
            '"' => return Some(file),
            '\\' => match rest.next()? {
                'u' => {
                    let code = u32::from_str_radix(rest.as_str().get(..4)?, 16).ok()?;
                    file.push(char::from_u32(code)?);
                    rest.nth(3);
                }
                c => file.push(c),
            },
            c => file.push(c),
        }
    }
}

/// What an element of a drawing says.
fn element(text: &str, name: &str) -> Option<String> {
    let (_, rest) = text.split_once(&format!("<{name}>"))?;
    let (said, _) = rest.split_once(&format!("</{name}>"))?;
    let entities =
        [("&lt;", "<"), ("&gt;", ">"), ("&quot;", "\""), ("&apos;", "'"), ("&amp;", "&")];
    Some(entities.iter().fold(said.to_string(), |said, (entity, c)| said.replace(entity, c)))
}

#[cfg(test)]
mod tests {
    use super::*;

    fn same(one: &str, other: &str) -> bool {
        let [one, other] = [one, other].map(|file| Silo::of_file(file).expect(file));
        assert_eq!(one.is(&other), other.is(&one));
        one.is(&other)
    }

    #[test]
    fn one_silo_under_its_names() {
        for other in ["tower.silo", "tower.sheet", "tower", "./tower.txt", "../tower.silo"] {
            assert!(same("tower.silo", other), "{other}");
        }
        for other in ["a/tower.sheet", "/home/a/tower.silo", "./a/tower.silo", "../a/tower.silo"] {
            assert!(same("a/tower.silo", other), "{other}");
        }
        for other in
            ["towers.silo", "Tower.silo", "a/tower-2.silo", "tower.v2.silo", "tower/a.silo"]
        {
            assert!(!same("tower.silo", other), "{other}");
        }
        assert!(!same("a/tower.silo", "b/tower.silo"), "of two customers");
    }

    #[test]
    fn names_that_say_nothing() {
        for file in [STANDARD_INPUT, "/dev/stdin", "/dev/fd/63", "/proc/self/fd/0"] {
            assert_eq!(Silo::of_file(file), None);
        }
        assert_eq!(Silo::of_title(STANDARD_INPUT.to_string()), None);
    }
}
