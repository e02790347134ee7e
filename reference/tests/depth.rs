//! Depths for pressures, as C-19 writes them down: what both calls answer, every list of pressures with every reply list, and every
//! millimetre of a wall.

use reference::calls::Library;
use reference::compare::Comparison;
use reference::depths::{bounds, is_reply, judge, MOST};
use reference::inputs::sample;
use reference::limits::under_headroom;
use reference::linked::Linked;
use reference::sheet::Silo;
use std::collections::BTreeMap;

/// The sample, and the same V under a headroom; a squat bin; a rectangle.
fn accepted() -> [Silo; 4] {
    [
        sample(),
        under_headroom(&[5_000], 7_000, (0, 0), 3_000),
        Silo { section: vec![8_000], ..sample() },
        Silo { section: vec![5_000, 15_000], ..sample() },
    ]
}

/// These, and refused ones: long, full to the brim's foot with a headroom, ten times as high as wide, too light, and without a sheet.
fn sheets() -> Vec<Vec<u8>> {
    let refused = [
        Silo { section: vec![5_000, 15_001], ..sample() },
        Silo { headroom: Some(10_000), ..sample() },
        Silo { section: vec![900], ..sample() },
        Silo { weight: 999, ..sample() },
    ];
    let sheets = accepted().into_iter().chain(refused).map(|silo| silo.sheet());
    sheets.chain([vec![]]).collect()
}

/// The library's p_he at V, the last strake's.
fn at_foot(silo: &Silo) -> u32 {
    let (sheet, mut list) = (silo.sheet(), vec![0; silo.answers_length()]);
    // SAFETY: each pointer is a slice's own.
    let answer = unsafe { Linked.loads(&sheet[..], &mut list[..]) };
    assert_eq!(answer, 0);
    list[list.len() - 1]
}

fn depth(silo: &Silo, pressure: u32) -> u64 {
    let answer = Comparison::with(&Linked).depth(&silo.sheet(), pressure).unwrap();
    answer - (1 << 32)
}

#[test]
fn its_answers() {
    let answer = |sheet: &[u8], pressures: &[u32], list| judge(sheet, pressures, list).err();
    let [sample, long, high] = [vec![5_000], vec![5_000, 15_001], vec![900]]
        .map(|section| Silo { section, ..sample() }.sheet());
    for equal in [1, 2, MOST] {
        assert_eq!(answer(&sample, &vec![7; equal], equal), None);
        assert_eq!(
            [equal - 1, equal + 1].map(|list| answer(&sample, &vec![7; equal], list)),
            [Some(22); 2]
        );
    }
    for wrong in [vec![], vec![7; MOST + 1], vec![1, 0], vec![0, 5, 4]] {
        let lists = [0, wrong.len(), MOST];
        assert_eq!(lists.map(|list| answer(&sample, &wrong, list)), [Some(21); 3], "before 22");
        assert_eq!(lists.map(|list| answer(&long, &wrong, list)), [Some(20); 3], "before 21");
        assert_eq!(lists.map(|list| answer(&high, &wrong, list)), [Some(12); 3], "before 21");
    }
    assert_eq!([0, 2].map(|list| answer(&long, &[7], list)), [Some(20); 2], "before 22");
}

/// Of the sample p_he is 24,636 at 5,000, or 24,638, since p_hf is 17,597 or 17,598.
#[test]
fn as_written() {
    assert_eq!(bounds(&sample(), 5_000), (24_636, 24_638));
    assert_eq!(bounds(&sample(), 0), (0, 0));
    assert!(depth(&sample(), 24_635) < 5_000 && depth(&sample(), 24_638) >= 5_000);
}

/// Pressure 0 reaches down to the surface and no further; that at V, or more, down to V, and one less not so far.
#[test]
fn the_ends() {
    for silo in accepted() {
        let (foot, p_he) = (silo.foot(), at_foot(&silo));
        assert_eq!(depth(&silo, 0), silo.g());
        assert_eq!([p_he, p_he + 1, u32::MAX].map(|pressure| depth(&silo, pressure)), [foot; 3]);
        assert!(depth(&silo, p_he - 1) < foot);
    }
}

/// Lists of pressures of each length round the limits, rising and equal; and falling by one at each place.
fn lists(p_he: u32) -> Vec<Vec<u32>> {
    let telling = [0, 1, p_he - 1, p_he, p_he + 1, u32::MAX];
    let rising = |length: usize| (0..length).map(|i| telling[i * telling.len() / length]).collect();
    let mut lists: Vec<Vec<u32>> = [0, 1, 2, 6, 31, 32, 33, 34, 64].map(rising).into();
    lists.extend(telling.map(|pressure| vec![pressure]));
    lists.extend([2, MOST, MOST + 1].map(|length| vec![p_he; length]));
    for length in [2, MOST] {
        for place in 1..length {
            let mut list = vec![p_he; length];
            list[..place].fill(p_he + 1);
            lists.push(list);
        }
    }
    lists
}

#[test]
fn every_list_with_every_reply_list() {
    let mut comparison = Comparison::with(&Linked);
    let mut calls = BTreeMap::new();
    let p_he = at_foot(&sample());
    for sheet in sheets() {
        for pressures in lists(p_he) {
            let due = pressures.len();
            for length in [due, due.saturating_sub(1), due + 1, 0, MOST, MOST + 1] {
                let answer = comparison.depths_in(&sheet, &pressures, length).unwrap();
                *calls.entry(answer).or_insert(0) += 1;
            }
        }
    }
    println!("depths for pressures: calls by their answer {calls:?}");
    assert!(calls.keys().eq(&[0, 2, 7, 12, 17, 20, 21, 22]));
}

/// The bounds at every millimetre: each reply lies between the greatest depths at which the one and the other is not above its pressure.
#[test]
fn between_the_bounds() {
    for silo in accepted() {
        let bounds: Vec<(u64, u64)> = (0..=silo.foot()).map(|z| bounds(&silo, z)).collect();
        assert!(bounds.is_sorted_by_key(|(least, _)| least));
        assert!(bounds.is_sorted_by_key(|(_, most)| most));
        let p_he = at_foot(&silo);
        for pressure in (0..=p_he).step_by(p_he as usize / 50).chain([1, p_he - 1, p_he, u32::MAX])
        {
            let not_above = |bound: fn(&(u64, u64)) -> u64| {
                bounds.partition_point(|pair| bound(pair) <= pressure.into()) as u64 - 1
            };
            let between = not_above(|(_, most)| *most)..=not_above(|(least, _)| *least);
            assert!(between.contains(&depth(&silo, pressure)), "{pressure}: {between:?}");
            let allowed = |z: &u64| is_reply(&silo, *z, pressure, |z| bounds[z as usize]);
            assert!((0..=silo.foot()).filter(allowed).eq(between));
        }
    }
}
