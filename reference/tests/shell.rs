//! The patch round the shell of document 01's sample, as C-16 writes it down; what the call answers to it, to rectangles, to long bins of
//! C-17, and to every depth with every list.

use reference::compare::Comparison;
use reference::inputs::sample;
use reference::limits::under_headroom;
use reference::linked::Linked;
use reference::sheet::Silo;
use reference::shell::{folded, judge, reply, LENGTH};
use std::collections::BTreeMap;

/// p_p at 5,000, where p_hf is 17,597.
const PATCH: u64 = 4_928;

#[test]
fn as_written() {
    let reply = reply(&sample(), PATCH);
    assert_eq!(reply.len(), 361);
    // 4,928 times 0.70710678118…, 0.99984769515… and 0.01745240643…
    let at = [(0, 4_928), (45, 3_485), (60, 2_464), (1, 4_928), (89, 87), (90, 0)];
    for (degree, size) in at {
        assert_eq!(reply[degree], size, "at {degree}");
        assert_eq!(reply[180 - degree], -size, "at {degree} short of 180");
        assert_eq!(reply[(180 + degree) % 360], -size, "at {degree} past 180");
        assert_eq!(reply[(360 - degree) % 360], size, "at {degree} short of 360");
    }
    // 355/226·1·5·4,928 is 38,704.4….
    assert_eq!(reply[360], 38_705, "the force");
}

#[test]
fn angles_fold_to_the_nearer_half_of_the_axis() {
    let at = [0, 1, 89, 90, 91, 179, 180, 181, 269, 270, 271, 359];
    assert_eq!(at.map(folded), [0, 1, 89, 90, 89, 1, 0, 1, 89, 90, 89, 1]);
}

#[test]
fn its_answers() {
    let square = Silo { section: vec![5_000, 5_000], ..sample() };
    let high = |silo: &Silo| Silo { section: vec![900; silo.section.len()], ..silo.clone() };
    let answer = |silo: &Silo, depth, list| judge(&silo.sheet(), depth, list).err().unwrap_or(0);
    let sides = |a, b| Silo { section: vec![a, b], ..sample() };
    for [a, b] in [[5_000, 15_000], [15_000, 5_000]] {
        assert_eq!(answer(&sides(a, b), 10_000, LENGTH), 19);
    }
    for long in [sides(5_000, 15_001), sides(15_001, 5_000)] {
        let light = Silo { weight: 999, ..long.clone() };
        assert_eq!([LENGTH, 0].map(|list| answer(&long, 10_000, list)), [20, 20], "before 19");
        assert_eq!([&long, &light].map(|silo| answer(silo, 10_001, LENGTH)), [20, 20], "before 7");
    }
    assert_eq!(answer(&sample(), 10_000, LENGTH), 0);
    assert_eq!([360, 362, 0].map(|list| answer(&sample(), 10_000, list)), [14, 14, 14]);
    assert_eq!([LENGTH, 0].map(|list| answer(&square, 10_000, list)), [19, 19], "before 14");
    for silo in [&sample(), &square] {
        assert_eq!([LENGTH, 0].map(|list| answer(&high(silo), 10_000, list)), [12, 12]);
        assert_eq!([LENGTH, 0].map(|list| answer(silo, 10_001, list)), [11, 11]);
        assert_eq!(answer(&high(silo), 10_001, LENGTH), 11, "before 12");
        let full = Silo { headroom: Some(10_000), ..silo.clone() };
        assert_eq!([10_000, 10_001].map(|depth| answer(&full, depth, LENGTH)), [17, 11]);
    }
}

/// Circles, squares and long bins with a V of 10,000: accepted or not, under a headroom, full to the brim's foot with it, and ten times as
/// high as wide.
fn silos() -> Vec<Silo> {
    let of_section = |section: Vec<u64>| {
        let silo = Silo { section, ..sample() };
        let under = under_headroom(&silo.section, 7_000, (0, 0), 3_000);
        let full = Silo { headroom: Some(10_000), ..silo.clone() };
        let narrow = silo.section.iter().map(|side| side * 9 / 50).collect();
        let high = Silo { section: narrow, ..silo.clone() };
        [silo, under, full, high]
    };
    let sections = [vec![5_000], vec![5_000, 5_000], vec![5_000, 20_000]];
    sections.into_iter().flat_map(of_section).collect()
}

#[test]
fn every_depth_with_every_list() {
    let mut comparison = Comparison::with(&Linked);
    let mut calls = BTreeMap::new();
    for sheet in silos().iter().map(Silo::sheet) {
        let inside = [0, 1, 2_999, 3_000, 3_001, 5_000, 9_999, 10_000];
        let over = [10_001, 13_000, 13_001, (1 << 16) + 5_000, 1 << 31, u32::MAX.into()];
        for depth in inside.into_iter().chain(over) {
            for list in [LENGTH, 0, 1, LENGTH - 1, LENGTH + 1, 2 * LENGTH] {
                let answer = comparison.patch(&sheet, depth, list).unwrap();
                *calls.entry(answer).or_insert(0) += 1;
            }
        }
    }
    println!("shell patches: calls by their answer {calls:?}");
    assert!(calls.keys().eq(&[0, 11, 12, 14, 17, 19, 20]));
}
