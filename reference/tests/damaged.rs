//! Damaged sheets of accepted silos and of long bins, of six records and of seven: cut, extended, bytes and fields overwritten, noise, also
//! behind the sixth record, and numbers at or next to a limit.

use reference::compare::{Comparison, REFUSALS};
use reference::inputs::Random;
use reference::linked::Linked;
use reference::runs;

#[test]
fn damaged_sheets() {
    let mut comparison = Comparison::with(&Linked);
    let mut random = Random::new(1_991);
    for _ in 0..700 {
        runs::damaged(&mut comparison, &mut random, 40).unwrap();
    }
    comparison.report(REFUSALS);
}
