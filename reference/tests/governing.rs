//! The governing call: lists of several lengths, last numbers and numbers before them, each with each, and random ones.

use reference::compare::Comparison;
use reference::inputs::Random;
use reference::linked::Linked;
use reference::runs;

#[test]
fn lists_each_with_each() {
    let comparison = Comparison::with(&Linked);
    let calls = runs::governing(&comparison, &mut Random::new(1_991)).unwrap();
    println!("governing: calls by their answer {calls:?}");
    assert!(calls.keys().eq(&[0, 1, 2]));
}

#[test]
fn as_written() {
    let comparison = Comparison::with(&Linked);
    let governing = |first: &[u32], second: &[u32]| comparison.governing(first, second).unwrap();
    assert_eq!(governing(&[9, 5], &[1, 6]), 2, "the greater last number");
    assert_eq!(governing(&[1, 6], &[9, 5]), 1, "the greater last number");
    assert_eq!(governing(&[1, 6], &[9, 6]), 1, "the first when equal");
    assert_eq!(governing(&[6], &[1, 5]), 0, "lengths that differ");
    assert_eq!(governing(&[], &[]), 0, "lengths of 0");
}
