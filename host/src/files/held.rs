//! What an existing file holds, and whether an output may take its place.

use super::{whole, Kind, Silo};
use crate::csv;
use std::fs::File;
use std::path::Path;

pub enum Held {
    Nothing,
    /// An output or a silo's text, the silo that it names, and its bytes.
    Known(Kind, Option<Silo>, Vec<u8>),
    Other,
}

/// How an output takes the place of a file.
#[derive(Clone, Copy, Debug, PartialEq, Eq)]
pub enum Replacement {
    Plain,
    /// A copy of the old one is left beside.
    WithCopy,
}

impl Held {
    /// An error is in words.
    pub fn by(path: &Path) -> Result<Held, String> {
        let bytes = File::open(path).and_then(|file| whole(&file));
        let bytes =
            bytes.map_err(|error| format!("may not be read ({error}) and may be of use"))?;
        Ok(match bytes {
            Some(bytes) if bytes.is_empty() => Held::Nothing,
            Some(bytes) => Held::of(bytes),
            None => Held::Other,
        })
    }

    fn of(bytes: Vec<u8>) -> Held {
        let Some(kind) = Kind::of(&bytes) else { return Held::Other };
        let text = std::str::from_utf8(&bytes).unwrap_or_default();
        let silo = Silo::of_output(kind, text.strip_prefix('\u{feff}').unwrap_or(text));
        Held::Known(kind, silo, bytes)
    }

    /// What it is and of which silo, or that it is empty or names none.
    pub fn words(&self) -> Option<String> {
        match self {
            Held::Nothing => Some("empty".to_string()),
            Held::Other => None,
            Held::Known(kind, None, _) if kind.is_of_a_silo() => {
                Some(format!("{}, which names no silo", kind.with_article()))
            }
            Held::Known(kind, silo, _) => Some(named(*kind, silo.as_ref())),
        }
    }

    /// An empty file goes, and so does one of the same kind and silo, unless a person may have written in it. Where one of the two
    /// names no silo, the old one is left beside.
    pub fn replacement(&self, kind: Kind, silo: Option<&Silo>) -> Result<Replacement, String> {
        let (found, old, bytes) = match self {
            Held::Nothing => return Ok(Replacement::Plain),
            Held::Other => {
                return Err(format!("holds something other than {} by silo", kind.with_article()))
            }
            Held::Known(found, old, bytes) => (*found, old.as_ref(), bytes),
        };
        if found != kind {
            return Err(format!("holds {}, not {}", named(found, old), kind.with_article()));
        }
        if kind == Kind::Text {
            return Err("holds a silo's text, which may be written by hand".to_string());
        }
        if let (Some(old), Some(silo)) = (old, silo) {
            if !old.is(silo) {
                let held = named(kind, Some(old));
                return Err(format!("holds {held}, not of {}", silo.file));
            }
        }
        if kind.is_csv() {
            unchanged(bytes)?;
        }
        Ok(match kind.is_of_a_silo() && (old.is_none() || silo.is_none()) {
            true => Replacement::WithCopy,
            false => Replacement::Plain,
        })
    }
}

/// Such as "CSV of loads of tower.silo".
fn named(kind: Kind, silo: Option<&Silo>) -> String {
    let silo = silo.map(|silo| format!(" of {}", silo.file)).unwrap_or_default();
    format!("{}{silo}", kind.with_article())
}

/// A CSV is as the tool wrote it.
fn unchanged(bytes: &[u8]) -> Result<(), String> {
    match std::str::from_utf8(bytes).ok().and_then(csv::is_as_written) {
        Some(true) => Ok(()),
        Some(false) => {
            Err("was changed since it was written: its check number differs".to_string())
        }
        None => {
            Err("may have been changed since it was written: its last row is no check row"
                .to_string())
        }
    }
}
