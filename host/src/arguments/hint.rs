//! The whole right command for words that are nearly one.

use super::table::{self, COMMANDS};
use super::Arguments;
use silo::commands::{self, Format};
use silo::files;
use silo::name::close;
use std::ffi::{OsStr, OsString};
use std::path::Path;

/// Words as a shell reads them.
fn command_line<'a>(words: impl IntoIterator<Item = &'a OsString>) -> String {
    let words = words.into_iter().map(|word| quoted(&word.to_string_lossy()));
    ["silo".to_string()].into_iter().chain(words).collect::<Vec<String>>().join(" ")
}

fn quoted(word: &str) -> String {
    let plain = |c: char| c.is_alphanumeric() || "_-./,:=+@%".contains(c);
    match !word.is_empty() && word.chars().all(plain) {
        true => word.to_string(),
        false => format!("'{}'", word.replace('\'', "'\\''")),
    }
}

/// Where a word stands that is not the file to write.
fn place(words: &[OsString], word: &OsStr) -> Option<usize> {
    (0..words.len()).find(|i| words[*i] == *word && (*i == 0 || words[*i - 1] != *"-o"))
}

/// The command line with another file in the place of one that is not there, such as tower.silo for tower.
pub fn with_file_meant(given: &[OsString], file: &OsStr, command: &str) -> Option<String> {
    let mut words = given.to_vec();
    let place = place(&words, file)?;
    words[place] = files::meant(file, table::command(command)?.reads)?;
    Some(format!("did you mean {}?", command_line(&words)))
}

impl Arguments {
    /// Where a file stands in the command's place: the command line with one.
    pub fn with_command(&self) -> Option<String> {
        let (first, rest) = self.words.split_first()?;
        let path = Path::new(first);
        let ending = path.extension().is_some_and(|ending| ending == "silo" || ending == "sheet");
        let mut file = first.clone();
        if !ending && !path.is_file() {
            let names = COMMANDS.iter().map(|command| command.name);
            if !close(&first.to_string_lossy().to_lowercase(), names).is_empty() {
                return None;
            }
            file = files::meant(first, COMMANDS[0].reads)?;
        }
        let mut words = self.given.clone();
        let place_of_first = place(&words, first)?;
        words[place_of_first] = file;
        let named = rest.iter().find(|word| table::command(&word.to_string_lossy()).is_some());
        let command = match named.and_then(|named| place(&words, named)) {
            Some(place) => words.remove(place),
            None => self.fitting().into(),
        };
        words.insert(0, command);
        Some(command_line(&words))
    }

    /// Where two files are named: a name with spaces, or a file to write.
    pub fn of_two(&self, files: &[OsString]) -> String {
        let spaced = files.join(OsStr::new(" "));
        let [first, more, ..] = files else { return String::new() };
        if Path::new(&spaced).is_file() {
            return format!(
                "; a name with spaces stands in quotes: {}",
                quoted(&spaced.to_string_lossy())
            );
        }
        match self.output.is_none() && Path::new(first).is_file() && !Path::new(more).exists() {
            true => format!("; to write to it, -o {}", quoted(&more.to_string_lossy())),
            false => String::new(),
        }
    }

    /// The first command that takes the options and writes a file of that ending.
    fn fitting(&self) -> &'static str {
        let format = self.format().unwrap_or(Format::Table);
        let fits = |command: &&table::Command| {
            let kind = commands::kind(command.name, format, self.depth);
            self.options.iter().all(|option| command.options.contains(option))
                && self.output.as_ref().is_none_or(|output| kind.fits(output).is_ok())
        };
        COMMANDS.iter().find(fits).unwrap_or(&COMMANDS[0]).name
    }
}
