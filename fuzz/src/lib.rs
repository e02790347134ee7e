//! The comparison with the second implementation as C functions, over a library that the caller links. Each stops the process at a
//! difference.

use reference::calls::Difference;
use reference::compare::Comparison;
use reference::depths::MOST;
use reference::inputs::Random;
use reference::linked::Linked;
use reference::{limits, order, runs, shell};

fn stop_at<T>(outcome: Result<T, Difference>) -> T {
    outcome.unwrap_or_else(|difference| {
        eprintln!("{difference}");
        std::process::abort()
    })
}

/// Compares the seven calls that take a sheet for these bytes, the shell patch call also with the depth that they end with, the calls for
/// depths also with that number and with all that they hold as pressures, the catalogue call for the row, wall and buffer length that they
/// begin with, and the governing call for the halves of their numbers.
///
/// # Safety
/// `input` points to `length` bytes.
#[no_mangle]
pub unsafe extern "C" fn compare_input(input: *const u8, length: usize) {
    // SAFETY: the caller's own promise.
    let bytes = unsafe { std::slice::from_raw_parts(input, length) };
    let byte = |i: usize| bytes.get(i).copied().unwrap_or(0);
    let list = usize::from(u16::from_le_bytes([byte(0), byte(1)]) % 2_048);
    let row = u32::from_le_bytes([byte(0), byte(1), byte(2), byte(3)]);
    let mut comparison = Comparison::with(&Linked);
    stop_at(comparison.sheet(bytes, &[list]));
    let last = bytes.last_chunk().map_or(0, |last| u32::from_le_bytes(*last));
    stop_at(comparison.patch(bytes, last.into(), shell::LENGTH));
    stop_at(comparison.depth(bytes, last));
    stop_at(comparison.catalogue(row, byte(4).into(), usize::from(byte(8)) % 32));
    let number = |bytes: &[u8]| u32::from_le_bytes(bytes.try_into().expect("four bytes"));
    let numbers: Vec<u32> = bytes.chunks_exact(4).map(number).collect();
    let (first, second) = numbers.split_at(numbers.len() / 2);
    stop_at(comparison.governing(first, second));
    compare_depths(&mut comparison, bytes, &numbers, usize::from(byte(4)));
}

/// The numbers as a list of pressures, one too many at most, with a reply list of some length; and as many as there may be, made to rise,
/// with that and with the one due.
fn compare_depths(comparison: &mut Comparison, bytes: &[u8], numbers: &[u32], length: usize) {
    let mut pressures = numbers[..numbers.len().min(MOST + 1)].to_vec();
    stop_at(comparison.depths_in(bytes, &pressures, length));
    pressures.truncate(MOST);
    pressures.sort();
    stop_at(comparison.depths_in(bytes, &pressures, length));
    stop_at(comparison.depths_in(bytes, &pressures, pressures.len()));
}

/// Compares the load call and its length call: every limit, two rules broken at once, and random rounds; tells how many sheets. No other
/// call is made.
#[no_mangle]
pub extern "C" fn compare_sheets(rounds: u64, seed: u64) -> u64 {
    let mut comparison = Comparison { loads_alone: true, ..Comparison::with(&Linked) };
    let mut random = Random::new(seed);
    stop_at(runs::table(&mut comparison, &limits::sheets()));
    stop_at(runs::table(&mut comparison, &order::sheets()));
    stop_at((0..rounds).try_for_each(|_| runs::round(&mut comparison, &mut random)));
    comparison.tally.sheets()
}
