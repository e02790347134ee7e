//! pages PROGRAM TOOL [SHEETS [SEED]]: gives the program, and the tool as `TOOL page -`, sheets on standard input and compares what they
//! print with the second implementation's page, made of the library's numbers, byte by byte: some sheets of every limit and of each two
//! broken rules, the longest and shortest pages, and so many random ones, 300 where nothing is said, half of them damaged. Input also
//! arrives byte by byte, is far too long or never ends; of what is too long the program reads no more than it has to. Where standard input
//! cannot be read, or standard output not be written, the program says so on standard error.
//!
//! A refused sheet prints `REFUSED`, its number and nothing else. The program's status is 0 always, the tool's 1 for a refused sheet, with
//! its words on standard error; of an accepted one the tool may say there that it is improbable, and no more.
//!
//! Prints how many sheets there were; ends with status 1 at a difference, and where a kind of sheet or a refusal is missing.

use reference::calls::{expect, Difference, Outcome};
use reference::compare::{Comparison, REFUSALS};
use reference::inputs::{self, Random};
use reference::limits::{self, Due};
use reference::linked::Linked;
use reference::printer::{Failure, Printed, Printer};
use reference::sheet::parse;
use reference::{order, page};
use std::fs::File;
use std::io::{self, Read, Seek, Write};
use std::process::ExitCode;
use std::time::Duration;

/// Bytes of the longest sheet, and one more, which tells that an input is longer.
const ENOUGH: u64 = 1_025;

/// Of each number due in the tables, evenly chosen sheets.
const OF_EACH: usize = 16;

fn chosen() -> Vec<Vec<u8>> {
    let sheets: Vec<Due> = [limits::sheets(), order::sheets()].concat();
    let of_number = |number: u64| {
        let all: Vec<&Due> = sheets.iter().filter(|due| due.loads == number).collect();
        let every = all.len().div_ceil(OF_EACH).max(1);
        all.into_iter().step_by(every).map(|due| due.sheet.clone()).collect::<Vec<_>>()
    };
    (0..=20).flat_map(of_number).collect()
}

/// The ends of a sheet's length, and words.
fn lengths() -> Vec<Vec<u8>> {
    let mut sheets = vec![vec![], b"diameter 5 m\n".to_vec()];
    for length in [1, 4, 1_023, 1_024, 1_025, 1_026, 2_048, 65_536] {
        let mut sheet = inputs::sample().sheet();
        sheet.resize(length, 0);
        sheets.extend([sheet, vec![0; length]]);
    }
    sheets
}

fn random(count: u64, seed: u64) -> Vec<Vec<u8>> {
    let mut random = Random::new(seed);
    let mut sheets = Vec::new();
    for _ in 0..count.div_ceil(2) {
        let silo = inputs::silo(&mut random);
        sheets.extend([silo.sheet(), inputs::damaged(&mut random, &silo)]);
    }
    sheets
}

struct Run<'a> {
    comparison: Comparison<'a>,
    program: Printer,
    tool: Printer,
    to_tool: u64,
}

impl Run<'_> {
    /// What is printed for a sheet, by the library's numbers, which are compared first.
    fn due(&mut self, sheet: &[u8]) -> Result<String, Difference> {
        self.comparison.sheet(sheet, &[0])?;
        let page = match parse(sheet) {
            Ok(silo) => Ok(page::text(&self.comparison.answers(&silo)?)),
            Err(refusal) => Err(refusal),
        };
        Ok(page::printed(page))
    }

    /// The tool reads a silo's text too: bytes are a sheet to it where they begin with a control character.
    fn sheet(&mut self, sheet: &[u8], pause: Option<Duration>) -> Result<(), Failure> {
        let due = self.due(sheet)?;
        self.program.compare(sheet, self.program.print(sheet, pause)?, &due)?;
        if sheet.first().is_some_and(|first| *first < b'\t') {
            self.tool.compare(sheet, self.tool.print(sheet, pause)?, &due)?;
            self.to_tool += 1;
        }
        Ok(())
    }

    /// The program reads this input, leaves what is behind its first 1,025 bytes, and refuses it as too long.
    fn too_long(&self, read: u64, printed: Printed) -> Outcome {
        expect(read <= ENOUGH, &[], || format!("{read} bytes of a long input are read"))?;
        self.program.compare(&[], printed, "REFUSED 1\n")
    }

    /// A file of 64 MiB, which takes no room on the disk.
    fn long_file(&self) -> Result<(), Failure> {
        let path = std::env::temp_dir().join(format!("pages-{}", std::process::id()));
        let mut file = File::options().read(true).write(true).create_new(true).open(&path)?;
        std::fs::remove_file(&path)?;
        file.set_len(64 << 20)?;
        let printed = self.program.print_from(file.try_clone()?)?;
        Ok(self.too_long(file.stream_position()?, printed)?)
    }

    /// A pipe that holds more than enough and stays open.
    fn endless_pipe(&self) -> Result<(), Failure> {
        let (mut reader, mut writer) = io::pipe()?;
        let written = 2 * ENOUGH;
        writer.write_all(&vec![4; written as usize])?;
        let printed = self.program.print_from(reader.try_clone()?)?;
        drop(writer);
        let left = reader.read_to_end(&mut Vec::new())? as u64;
        Ok(self.too_long(written - left, printed)?)
    }

    /// Input that is no end of a sheet, and output that takes nothing: words, and no page.
    fn failing(&self) -> Result<(), Failure> {
        for redirected in ["<&-", "</", ">/dev/full", ">&-"] {
            let command = format!("exec \"$0\" {redirected}");
            let program = Printer::new(&["sh", "-c", &command, &self.program.words[0]], false);
            let sheet = inputs::sample().sheet();
            program.fails(&sheet, program.print(&sheet, None)?)?;
        }
        Ok(())
    }

    fn all(&mut self, count: u64, seed: u64) -> Result<(), Failure> {
        let ends = limits::pages().iter().map(|silo| silo.sheet()).collect();
        for sheet in [lengths(), ends, chosen(), random(count, seed)].concat() {
            self.sheet(&sheet, None)?;
        }
        let short = lengths().into_iter().filter(|sheet| sheet.len() <= 1_026).step_by(2);
        for sheet in random(16, seed).into_iter().chain(short) {
            self.sheet(&sheet, Some(Duration::from_micros(50)))?;
        }
        self.long_file()?;
        self.endless_pipe()?;
        self.failing()
    }
}

fn main() -> ExitCode {
    let arguments: Vec<String> = std::env::args().skip(1).collect();
    let [program, tool, numbers @ ..] = &arguments[..] else {
        eprintln!("usage: pages PROGRAM TOOL [SHEETS [SEED]]");
        return ExitCode::from(2);
    };
    let number = |i: usize, default: u64| {
        numbers.get(i).map_or(default, |text| text.parse().expect("a whole number"))
    };
    let (count, seed) = (number(0, 300), number(1, 1_991));
    let mut run = Run {
        comparison: Comparison::with(&Linked),
        program: Printer::new(&[program], false),
        tool: Printer::new(&[tool, "page", "-"], true),
        to_tool: 0,
    };
    match run.all(count, seed) {
        Ok(()) => {
            run.comparison.report(REFUSALS);
            println!(
                "{} of the sheets given to the tool; no difference (seed {seed})",
                run.to_tool
            );
            return ExitCode::SUCCESS;
        }
        Err(Failure::Difference(difference)) => println!("{difference}\n(seed {seed})"),
        Err(Failure::Input(error)) => println!("{program} or {tool} cannot be run: {error}"),
    }
    ExitCode::FAILURE
}
