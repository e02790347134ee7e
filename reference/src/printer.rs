//! Programs that print a sheet's page, and what they print.

use crate::calls::{expect, Difference, Outcome};
use std::io::{self, Read, Write};
use std::process::{Child, Command, ExitStatus, Stdio};
use std::thread::sleep;
use std::time::{Duration, Instant};

/// A program that has not ended by then waits for more input.
const PATIENCE: Duration = Duration::from_secs(20);

/// What the tool says of an accepted sheet that is improbable begins so, line by line.
const DOUBT: &str = "standard input: Doubt: ";

pub struct Printed {
    status: ExitStatus,
    output: Vec<u8>,
    messages: Vec<u8>,
}

/// What is run, and whether it is the tool.
pub struct Printer {
    pub words: Vec<String>,
    is_tool: bool,
}

impl Printer {
    pub fn new(words: &[&str], is_tool: bool) -> Printer {
        Printer { words: words.iter().map(|word| word.to_string()).collect(), is_tool }
    }

    fn start(&self, input: Stdio) -> io::Result<Child> {
        let mut command = Command::new(&self.words[0]);
        command.args(&self.words[1..]).stdin(input);
        command.stdout(Stdio::piped()).stderr(Stdio::piped()).spawn()
    }

    /// What it prints for this input.
    pub fn print_from(&self, input: impl Into<Stdio>) -> io::Result<Printed> {
        ended(self.start(input.into())?)
    }

    /// What it prints for a sheet in a pipe; `pause` comes after each byte where there is one.
    pub fn print(&self, sheet: &[u8], pause: Option<Duration>) -> io::Result<Printed> {
        let mut child = self.start(Stdio::piped())?;
        let mut input = child.stdin.take().expect("a pipe");
        let pieces = sheet.chunks(if pause.is_some() { 1 } else { sheet.len().max(1) });
        for piece in pieces {
            // A program that has read enough closes its end.
            if input.write_all(piece).is_err() {
                break;
            }
            pause.into_iter().for_each(sleep);
        }
        drop(input);
        ended(child)
    }

    /// It prints the text due to a sheet, or the refusal.
    pub fn compare(&self, sheet: &[u8], printed: Printed, due: &str) -> Outcome {
        let Printed { status, output, messages } = printed;
        let name = self.words.join(" ");
        expect(output == due.as_bytes(), sheet, || {
            format!("{name} prints {:?}, {due:?} due", String::from_utf8_lossy(&output))
        })?;
        let refused = self.is_tool && due.starts_with("REFUSED");
        expect(status.code() == Some(refused.into()), sheet, || format!("{name}: {status}"))?;
        let messages = String::from_utf8_lossy(&messages);
        let due = match (refused, self.is_tool) {
            (true, _) => !messages.is_empty(),
            (false, true) => messages.lines().all(|line| line.starts_with(DOUBT)),
            (false, false) => messages.is_empty(),
        };
        expect(due, sheet, || format!("{name} says {messages:?}"))
    }

    /// It prints nothing, and says why.
    pub fn fails(&self, sheet: &[u8], printed: Printed) -> Outcome {
        let name = self.words.join(" ");
        expect(printed.output.is_empty() && !printed.messages.is_empty(), sheet, || {
            format!("{name} prints {:?} and says nothing", String::from_utf8_lossy(&printed.output))
        })
    }
}

/// All fits into the pipes, so that they may be read when the program has ended.
fn ended(mut child: Child) -> io::Result<Printed> {
    let start = Instant::now();
    let status = loop {
        if let Some(status) = child.try_wait()? {
            break status;
        }
        if start.elapsed() > PATIENCE {
            child.kill()?;
            break child.wait()?;
        }
        sleep(Duration::from_micros(100));
    };
    let (mut output, mut messages) = (Vec::new(), Vec::new());
    child.stdout.take().expect("a pipe").read_to_end(&mut output)?;
    child.stderr.take().expect("a pipe").read_to_end(&mut messages)?;
    Ok(Printed { status, output, messages })
}

/// A difference, or a program that cannot be run.
pub enum Failure {
    Difference(Difference),
    Input(io::Error),
}

impl From<Difference> for Failure {
    fn from(difference: Difference) -> Failure {
        Failure::Difference(difference)
    }
}

impl From<io::Error> for Failure {
    fn from(error: io::Error) -> Failure {
        Failure::Input(error)
    }
}
