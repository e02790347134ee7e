//! compare [SHEETS [SEED]]: compares the catalogue and the governing call and long page buffers, then at least that many random sheets,
//! 1,000,000 where nothing is said, and prints how many of each kind; none of the kinds and refusals may be missing.
//!
//! compare --exactly SHEETS [SEED]: lends memory of exactly its length on the heap and no canaries, for valgrind.
//!
//! A difference ends it with status 1 and the sheet in hexadecimal.

use reference::calls::Outcome;
use reference::compare::{Comparison, REFUSALS};
use reference::inputs::Random;
use reference::linked::Linked;
use reference::runs;
use std::process::ExitCode;

/// Sheets between two lines of progress.
const PROGRESS: u64 = 1_000_000;

fn run(comparison: &mut Comparison, sheets: u64, seed: u64) -> Outcome {
    runs::catalogue(comparison)?;
    runs::governing(comparison, &mut Random::new(seed))?;
    runs::long_buffers(comparison)?;
    let mut random = Random::new(seed);
    let mut next = PROGRESS;
    while comparison.tally.sheets() < sheets {
        runs::round(comparison, &mut random)?;
        if comparison.tally.sheets() >= next {
            println!("{} sheets", comparison.tally.sheets());
            next += PROGRESS;
        }
    }
    Ok(())
}

fn main() -> ExitCode {
    let mut arguments: Vec<String> = std::env::args().skip(1).collect();
    let mut comparison = Comparison::with(&Linked);
    if arguments.first().is_some_and(|first| first == "--exactly") {
        arguments.remove(0);
        comparison.calls.canaries = 0;
    }
    let number = |i: usize, default: u64| {
        arguments.get(i).map_or(default, |text| text.parse().expect("a whole number"))
    };
    let (sheets, seed) = (number(0, 1_000_000), number(1, 1_991));
    match run(&mut comparison, sheets, seed) {
        Ok(()) => {
            comparison.report(REFUSALS);
            println!("no difference (seed {seed})");
            ExitCode::SUCCESS
        }
        Err(difference) => {
            println!("{}\n{difference}\n(seed {seed})", comparison.tally);
            ExitCode::FAILURE
        }
    }
}
