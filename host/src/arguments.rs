//! The command line's words as a task.

pub mod help;
pub mod hint;
mod table;

use silo::commands::Format;
use silo::name::suggestion;
use silo::number::LENGTH;
use silo::units::Units;
use silo::value::quantity;
use std::ffi::{OsStr, OsString};
use std::iter::Peekable;
use std::os::unix::ffi::OsStrExt;
use std::path::Path;
use table::{Command, COMMANDS, OPTIONS};

const FORMATS: [(&str, Format); 3] =
    [("--csv", Format::Csv), ("--csv-semicolon", Format::CsvSemicolon), ("--json", Format::Json)];

/// As they stand. A file's name may be any bytes; messages show U+FFFD where they are not UTF-8.
#[derive(Default)]
struct Arguments {
    /// All words, for hints.
    given: Vec<OsString>,
    /// The command and its file.
    words: Vec<OsString>,
    /// Names of `OPTIONS`, each once.
    options: Vec<&'static str>,
    /// After `-o`.
    output: Option<OsString>,
    /// After `--depth`, mm.
    depth: Option<u32>,
}

/// A command with what it works on.
pub struct Task {
    pub command: String,
    /// None for help, version and catalogue.
    pub file: Option<OsString>,
    /// None for standard output.
    pub output: Option<OsString>,
    pub format: Format,
    pub units: Units,
    /// Of a patch, mm below the brim.
    pub depth: Option<u32>,
    /// Degrees from one pressure of a patch to the next.
    pub step: usize,
    pub force: bool,
    /// An improbable silo has an exit status of its own.
    pub strict: bool,
    /// All words after the program's name, for hints.
    pub given: Vec<OsString>,
}

/// Without `--all`.
const STEP: usize = 10;

/// The task that the words after the program's name say, or what is wrong with them.
pub fn read(given: Vec<OsString>) -> Result<Task, String> {
    arguments(given).and_then(Arguments::task)
}

fn arguments(all: Vec<OsString>) -> Result<Arguments, String> {
    let mut read = Arguments { given: all.clone(), ..Arguments::default() };
    let mut given = all.into_iter().peekable();
    while let Some(word) = given.next() {
        let (name, value) = parts(&word);
        match (name.as_str(), value) {
            ("--help" | "-h", None) => return Ok(alone("help")),
            ("--version" | "-V", None) => return Ok(alone("version")),
            ("--", None) => read.words.extend(given.by_ref()),
            ("-o", value) => {
                read.add("-o", &word)?;
                read.output = Some(file_after(value, &mut given)?);
            }
            ("--depth", value) => {
                read.add("--depth", &word)?;
                read.depth = Some(depth_after(value, &mut given)?);
            }
            (option, None) if is_option(option) => read.add(option, &word)?,
            (option, Some(value)) => return Err(valueless(option, &value, &word)),
            _ => read.words.push(word),
        }
    }
    Ok(read)
}

fn is_option(word: &str) -> bool {
    word.len() > 1 && word.starts_with('-')
}

/// An option, and what stands behind `=` in the same word. Any other word is whole.
fn parts(word: &OsStr) -> (String, Option<OsString>) {
    let bytes = word.as_bytes();
    let split = bytes.iter().position(|byte| bytes[0] == b'-' && *byte == b'=');
    let (name, value) = bytes.split_at(split.unwrap_or(bytes.len()));
    let value = split.map(|_| OsStr::from_bytes(&value[1..]).to_os_string());
    (String::from_utf8_lossy(name).into_owned(), value)
}

fn alone(command: &str) -> Arguments {
    Arguments { words: vec![command.into()], ..Arguments::default() }
}

/// An option's value: behind `=`, or the next word; `=` may stand alone between spaces.
fn value_after(
    value: Option<OsString>,
    given: &mut Peekable<impl Iterator<Item = OsString>>,
) -> Option<OsString> {
    let value = value.filter(|value| !value.is_empty()).or_else(|| {
        given.next_if(|word| word == "=");
        given.next()
    });
    value.filter(|value| !value.is_empty())
}

/// The file after `-o`.
fn file_after(
    value: Option<OsString>,
    given: &mut Peekable<impl Iterator<Item = OsString>>,
) -> Result<OsString, String> {
    let word = value_after(value, given).ok_or("-o: a file is due after it")?;
    match is_option(&word.to_string_lossy()) {
        true => Err(format!(
            "-o: a file is due after it, not {0}; a file of that name is ./{0}",
            word.display()
        )),
        false => Ok(word),
    }
}

/// The depth after `--depth`, mm: a number with its unit, in one word or in two.
fn depth_after(
    value: Option<OsString>,
    given: &mut Peekable<impl Iterator<Item = OsString>>,
) -> Result<u32, String> {
    let number = value_after(value, given);
    let number = number.ok_or("--depth: a depth is due after it, such as 8 m")?;
    let unit = given.next_if(|word| LENGTH.is_unit(&word.to_string_lossy())).unwrap_or_default();
    let depth = format!("{} {}", number.display(), unit.display());
    let depth = quantity(depth.trim(), &LENGTH).map_err(|why| format!("--depth {why}"))?;
    Ok(depth as u32)
}

/// What is wrong with a value behind an option that takes none.
fn valueless(option: &str, value: &OsStr, word: &OsStr) -> String {
    match table::option(option) {
        None => unknown(word),
        Some(_) if FORMATS.iter().any(|(name, _)| *name == option) => format!(
            "{}: {option} has no value; a file to write stands after -o: {option} -o {}",
            word.display(),
            value.display()
        ),
        Some(_) => {
            format!("{}: {option} has no value; leave ={} out", word.display(), value.display())
        }
    }
}

/// What is known of an option that is not.
fn unknown(word: &OsStr) -> String {
    let option: &str = &word.to_string_lossy();
    let known = || OPTIONS.iter().map(|option| option.name);
    let hint = match option.strip_prefix("-o") {
        Some(file) if !file.is_empty() => format!("a space or = is due after -o: -o {file}"),
        _ if option.starts_with("--out") => "did you mean -o?".to_string(),
        _ if option.len() > 2 => suggestion(&option.to_lowercase(), known()),
        _ => format!("it can be {}", known().collect::<Vec<&str>>().join(", ")),
    };
    let file = match Path::new(option).exists() {
        true => "; -- stands before a file whose name starts with -",
        false => "",
    };
    format!("{option}: unknown option; {hint}{file}")
}

impl Arguments {
    fn add(&mut self, option: &str, word: &OsStr) -> Result<(), String> {
        let name = table::option(option).ok_or_else(|| unknown(word))?.name;
        if self.options.contains(&name) {
            return Err(format!("{option} stands twice"));
        }
        self.options.push(name);
        Ok(())
    }

    fn has(&self, option: &str) -> bool {
        self.options.contains(&option)
    }

    fn task(self) -> Result<Task, String> {
        let (name, files) = self.words.split_first().ok_or("a command is due")?;
        let name: &str = &name.to_string_lossy();
        let file = match ["help", "version"].contains(&name) {
            true => None,
            false => {
                let command = table::command(name).ok_or_else(|| self.unknown_command(name))?;
                let file = self.file(command, files)?;
                self.check(command, file)?;
                file
            }
        };
        Ok(Task {
            command: name.to_string(),
            file: file.cloned(),
            format: self.format()?,
            units: if self.has("--kpa") { Units::Kilo } else { Units::Whole },
            depth: self.depth,
            step: if self.has("--all") { 1 } else { STEP },
            force: self.has("--force"),
            strict: self.has("--strict"),
            output: self.output.filter(|output| output != "-"),
            given: self.given,
        })
    }

    fn unknown_command(&self, name: &str) -> String {
        match self.with_command() {
            Some(whole) => format!("{name}: a command is due before a file: {whole}"),
            None => {
                let known = COMMANDS.iter().map(|command| command.name).chain(["help"]);
                format!("{name}: unknown command; {}", suggestion(&name.to_lowercase(), known))
            }
        }
    }

    /// The file that a command reads.
    fn file<'a>(
        &self,
        command: &Command,
        files: &'a [OsString],
    ) -> Result<Option<&'a OsString>, String> {
        match (command.reads, files) {
            ([], []) => Ok(None),
            ([], [more, ..]) => Err(format!("{} {}: no file is due", command.name, more.display())),
            ([usual, ..], []) => {
                let example =
                    if *usual == "sheet" { "tower.sheet" } else { "samples/wheat-tower.silo" };
                Err(format!("{}: a file is due, such as {example}", command.name))
            }
            (_, [file]) => Ok(Some(file)),
            (_, [_, more, ..]) => {
                Err(format!("{}: one file is due{}", more.display(), self.of_two(files)))
            }
        }
    }

    /// The command has a use for each option, and the options that it needs.
    fn check(&self, command: &Command, file: Option<&OsString>) -> Result<(), String> {
        let name = command.name;
        if let Some(option) = self.options.iter().find(|option| !command.options.contains(option)) {
            let takes = COMMANDS.iter().filter(|command| command.options.contains(option));
            let takes = takes.map(|command| command.name).collect::<Vec<&str>>().join(", ");
            return Err(format!("{name} {option}: {option} is for silo {takes}"));
        }
        let file = file.map(|file| file.display().to_string()).unwrap_or_default();
        if ["sheet", "draw"].contains(&name) && self.output.is_none() {
            return Err(format!("{name} {file}: -o and the file to write are due"));
        }
        if name == "patch" && self.depth.is_none() {
            return Err(format!("patch {file}: --depth and a depth are due, such as --depth 8 m"));
        }
        if self.has("--force") && self.output.as_ref().is_none_or(|output| output == "-") {
            return Err("--force: without -o and a file nothing is replaced".to_string());
        }
        Ok(())
    }

    fn format(&self) -> Result<Format, String> {
        let given: Vec<&(&str, Format)> =
            FORMATS.iter().filter(|(option, _)| self.has(option)).collect();
        match given[..] {
            [] => Ok(Format::Table),
            [(_, format)] => Ok(*format),
            [(first, _), (second, _), ..] => Err(format!("{first} and {second}: one of the two")),
        }
    }
}
