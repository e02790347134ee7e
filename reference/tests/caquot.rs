//! Caquot's small table in source 003: K at eight values of h/b, four decimals each.
//!
//! His K is the bracket 1 - e^(-h/b) of Janssen's formula and his b is z0, so what can be compared is the bracket at q = h/b. (The
//! line above his table has K - 1 for 1 - K; his values are those of 1 - e^(-h/b).) His worked example cannot be compared: its
//! friction, tan 21.2°, and its b, 6.33 m, come from a theory of friction angles that no sheet in whole hundredths meets.
//!
//! Two comparisons. K has to be within half a unit of its last decimal of the exact bracket here. And with Ks 50, μ 40 and a circle
//! of 4,000·f mm, f being the product of a row's two factors (4,140, 3,240 and 5,290 mm), z0 is 5 m for that row; so the library's
//! pressure at 5,000·h/b mm has to lie from P·(K - 0.00005) to P·(K + 0.00005) + 2.

use reference::answers::{P_HF, P_VF, P_WF};
use reference::compare::Comparison;
use reference::exponential::exponential;
use reference::formulas::{self, Row, FRICTION, HORIZONTAL, VERTICAL};
use reference::fraction::{fraction, whole, Fraction, Real};
use reference::inputs::sample;
use reference::linked::Linked;
use reference::sheet::Silo;

/// h/b in tenths, and K in ten-thousandths.
const TABLE: [(u64, u64); 8] = [
    (0, 0),
    (2, 1_813),
    (5, 3_935),
    (10, 6_321),
    (20, 8_647),
    (30, 9_502),
    (40, 9_817),
    (50, 9_933),
];

/// K less and plus half a unit of its last decimal; K = 0 at h = 0 is exact.
fn printed(k: u64) -> (Fraction, Fraction) {
    match k {
        0 => (whole(0), whole(0)),
        _ => (fraction(2 * k - 1, 20_000), fraction(2 * k + 1, 20_000)),
    }
}

#[test]
fn the_exact_bracket_is_the_printed_one() {
    for (tenths, k) in TABLE {
        let bracket = Real::exactly(whole(1)).minus(&exponential(&fraction(tenths, 10)));
        let (low, high) = printed(k);
        let agrees = bracket.high <= high && bracket.low >= low;
        assert!(agrees, "K at h/b = {tenths}/10 is not {k}/10000");
    }
}

#[test]
fn the_pressures_follow_the_printed_brackets() {
    let mut comparison = Comparison::with(&Linked);
    // Row of factors, diameter, the row's place in `before_bracket`, and its load.
    let rows =
        [(HORIZONTAL, 4_140, 0, P_HF), (VERTICAL, 3_240, 1, P_VF), (FRICTION, 5_290, 2, P_WF)];
    for (row, diameter, place, load) in rows {
        let silo = Silo {
            section: vec![diameter],
            strakes: vec![2_500; 10],
            depths: TABLE.iter().map(|(tenths, _)| 500 * tenths).collect(),
            ..sample()
        };
        comparison.accepted(&silo).unwrap();
        let answers = comparison.answers(&silo).unwrap();
        let pressures: Vec<u64> = answers.rows.iter().map(|at_depth| at_depth[load]).collect();
        follow(&silo, row, &formulas::before_bracket(&silo)[place], &pressures);
    }
    println!("{}", comparison.tally);
}

/// P·(K - 0.00005) ≤ p ≤ P·(K + 0.00005) + 2 for each line of the table, and 0 for the first.
fn follow(silo: &Silo, row: Row, factor: &Fraction, pressures: &[u64]) {
    for (i, (tenths, k)) in TABLE.into_iter().enumerate() {
        assert!(formulas::q(silo, row, silo.depths[i]) == fraction(tenths, 10));
        let (low, high) = printed(k);
        let above = whole(if k == 0 { 0 } else { 2 });
        let pressure = whole(pressures[i]);
        let agrees = pressure >= factor.times(&low) && pressure <= factor.times(&high).plus(&above);
        assert!(agrees, "{} is not Caquot's at h/b = {tenths}/10", pressures[i]);
    }
}
