//! Every limit of document 01, of C-11 and C-13 to C-17 at, below and above, and sheets that break two rules at once; each with the lists of
//! pressures and reply lists of C-19.

use reference::compare::{Comparison, REFUSALS};
use reference::formulas::Discharge;
use reference::fraction::{fraction, whole};
use reference::linked::Linked;
use reference::{limits, order, runs};

#[test]
fn every_limit_at_below_and_above() {
    let mut comparison = Comparison::with(&Linked);
    runs::table(&mut comparison, &limits::sheets()).unwrap();
    comparison.report(REFUSALS);
    let [_, to_eight @ .., nine] = comparison.tally.digits;
    assert!(to_eight.iter().all(|numbers| *numbers > 0) && nine == 0, "digits of a page's numbers");
}

#[test]
fn of_two_broken_rules_the_first_is_the_refusal() {
    let mut comparison = Comparison::with(&Linked);
    let sheets = order::sheets();
    runs::table(&mut comparison, &sheets).unwrap();
    comparison.report((1..=12).chain([17, 18, 20]));
}

#[test]
fn the_factors_of_both_kinds_meet_at_their_limits() {
    for c0 in (100..=200).map(|hundredths| fraction(hundredths, 100)) {
        let slender = Discharge::slender(&c0);
        for d_c in (500..=50_000).step_by(2) {
            let slenderness = fraction(d_c + d_c / 2, d_c);
            assert!(Discharge::squat(&c0, &slenderness) == slender, "h = 1.5·d_c, {d_c}");
        }
        let one = Discharge { c_h: whole(1), c_w: whole(1) };
        assert!(Discharge::squat(&c0, &whole(1)) == one, "h = d_c");
    }
}
