//! The catalogue call for every row and wall of table 7.1, for some that are not there, and for buffers of several lengths.

use reference::compare::Comparison;
use reference::linked::Linked;
use reference::runs;

#[test]
fn every_row_and_wall_and_the_limits_of_15_and_16() {
    let calls = runs::catalogue(&Comparison::with(&Linked)).unwrap();
    println!("catalogue: calls by their answer {calls:?}");
    assert!(calls.keys().eq(&[0, 15, 16]));
}
