//! Accepted sheets over the whole range, with ends of every range and neighbouring millimetres among them; about half of them have a
//! headroom.

use reference::compare::Comparison;
use reference::inputs::Random;
use reference::linked::Linked;
use reference::runs;

#[test]
fn every_load_of_accepted_sheets() {
    let mut comparison = Comparison::with(&Linked);
    runs::accepted(&mut comparison, &mut Random::new(1_991), 3_000).unwrap();
    comparison.report([14, 18]);
}
