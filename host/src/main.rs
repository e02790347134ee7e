//! The command line: reads arguments and files, writes what a command says.

mod arguments;

use arguments::{help, hint, Task};
use silo::commands::{self, Format, Outcome};
use silo::files::{self, Input, Target};
use std::io::{self, Write};
use std::process::ExitCode;

const VERSION: &str = concat!("silo ", env!("CARGO_PKG_VERSION"), "\n");

fn main() -> ExitCode {
    match arguments::read(std::env::args_os().skip(1).collect()) {
        Ok(task) => task.run(),
        Err(why) => finish(bad_use(&format!("{why}\nsilo --help shows the commands")), None),
    }
}

fn bad_use(why: &str) -> Outcome {
    commands::bad_use(format!("silo: {why}\n"))
}

impl Task {
    fn run(&self) -> ExitCode {
        let Some(file) = &self.file else { return finish(self.written(self.alone(), None), None) };
        match Input::open(file) {
            Ok(input) => {
                let outcome = self.run_on(&input);
                finish(if self.strict { outcome.strict() } else { outcome }, Some(&input))
            }
            Err(why) => {
                let meant = hint::with_file_meant(&self.given, file, &self.command);
                let why = [why].into_iter().chain(meant).collect::<Vec<String>>().join("; ");
                finish(self.unreadable(&files::shown(file), &why), None)
            }
        }
    }

    fn run_on(&self, input: &Input) -> Outcome {
        let name = &input.name;
        if input.is_standard_output() {
            let why = match input.is_empty() {
                true => "the file is empty; with > the shell empties it before it is read",
                false => "standard output is the file that is read, and it stays as it is",
            };
            return bad_use(&format!("{name}: {why}; write to another file"));
        }
        // before anything is read, so that nobody types in vain
        if let Err(why) = self.target(Some(input)) {
            return bad_use(&why);
        }
        match input.read() {
            Ok(bytes) => self.written(self.outcome(name, &bytes), Some(input)),
            Err(why) => self.unreadable(name, &why),
        }
    }

    fn unreadable(&self, name: &str, why: &str) -> Outcome {
        self.unwritten(match (self.command.as_str(), self.format) {
            ("check", Format::Json) => commands::check_unreadable(name, why),
            (_, format) => commands::unreadable(name, why, format),
        })
    }

    /// Says beside a failure that the file after -o, perhaps of the last run, stays.
    fn unwritten(&self, outcome: Outcome) -> Outcome {
        let stays = self.output.as_deref().and_then(files::stays);
        let stays = stays.map(|stays| format!("silo: {stays}\n")).unwrap_or_default();
        Outcome { messages: outcome.messages + &stays, ..outcome }
    }

    /// What a command says that reads no file.
    fn alone(&self) -> Outcome {
        match self.command.as_str() {
            "help" => commands::said(&help::page()),
            "version" => commands::said(VERSION),
            _ => commands::catalogue(self.format),
        }
    }

    fn outcome(&self, name: &str, bytes: &[u8]) -> Outcome {
        let (format, units) = (self.format, self.units);
        match (self.command.as_str(), self.depth) {
            ("loads", _) => commands::loads(name, bytes, format, units),
            ("check", _) => commands::check(name, bytes, format),
            ("page", _) => commands::page(name, bytes),
            ("patch", Some(depth)) => {
                commands::patch(name, bytes, (depth, self.step), format, units)
            }
            ("draw", Some(depth)) => commands::draw_patch(name, bytes, depth, units),
            ("draw", None) => commands::draw(name, bytes, units),
            ("sheet", _) => commands::sheet(name, bytes),
            _ => commands::explain(name, bytes),
        }
    }

    /// The file to write.
    fn target<'a>(&'a self, input: Option<&'a Input>) -> Result<Option<Target<'a>>, String> {
        let kind = commands::kind(&self.command, self.format, self.depth);
        let judged = |output| Target::of(output, kind, input, self.force);
        self.output.as_deref().map(judged).transpose()
    }

    /// Moves the output to its file. A refused silo has a sheet but no other file: what JSON or a
    /// page says of it is printed.
    fn written(&self, outcome: Outcome, input: Option<&Input>) -> Outcome {
        let file = outcome.status == 0 || self.command == "sheet";
        if !file || outcome.output.is_empty() {
            return self.unwritten(outcome);
        }
        let target = match self.target(input) {
            Ok(Some(target)) => target,
            Ok(None) => return outcome,
            Err(why) => return bad_use(&why),
        };
        let (status, said) = match target.write(&outcome.output) {
            Ok(said) => (outcome.status, said),
            Err(why) => (commands::BAD_USE, why),
        };
        let messages = format!("{}silo: {said}\n", outcome.messages);
        Outcome { status, messages, output: Vec::new(), ..outcome }
    }
}

/// Prints messages and output, but no message into the file that is read.
fn finish(outcome: Outcome, input: Option<&Input>) -> ExitCode {
    let say = |messages: &str| {
        if !input.is_some_and(Input::is_standard_error) {
            let _ = io::stderr().write_all(messages.as_bytes());
        }
    };
    say(&outcome.messages);
    match files::print(&outcome.output) {
        Ok(()) => ExitCode::from(outcome.status),
        Err(why) => {
            say(&format!("silo: {why}\n"));
            ExitCode::from(commands::BAD_USE)
        }
    }
}
