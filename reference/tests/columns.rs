//! The order of the answer list in C-18 beside the one before it: the number for each load and depth is the one that the row order held,
//! which the page still has line by line.

use reference::answers::{COLUMNS, LOADS, ROWS};
use reference::calls::Library;
use reference::inputs::{self, sample, Random};
use reference::linked::Linked;
use reference::page;
use reference::sheet::Silo;
use std::collections::BTreeSet;

/// The numbers of the library's list, and those of its page line by line.
fn list_and_page(silo: &Silo) -> (Vec<u64>, Vec<u64>) {
    let sheet = silo.sheet();
    let (mut list, mut buffer) = (vec![0; silo.answers_length()], vec![0; page::length(silo)]);
    // SAFETY: each pointer is a slice's own.
    let answers = unsafe {
        [Linked.loads(&sheet[..], &mut list[..]), Linked.page(&sheet[..], &mut buffer[..])]
    };
    assert_eq!(answers, [0, 0]);
    let numbers = page::numbers(&buffer, silo.depths.len()).expect("numbers in every field");
    (list.into_iter().map(u64::from).collect(), numbers)
}

/// Depth by depth and load by load; then bottom and strakes, where they were.
fn holds_what_rows_held(silo: &Silo) {
    let (list, rows) = list_and_page(silo);
    let depths = silo.depths.len();
    for depth in 0..depths {
        for (load, name) in LOADS.iter().enumerate() {
            let [now, before] = [COLUMNS, ROWS].map(|order| order(depths, load, depth));
            assert_eq!(list[now], rows[before], "{name} at {}", silo.depths[depth]);
        }
    }
    let bottom = LOADS.len() * depths;
    assert_eq!(list[bottom..], rows[bottom..], "bottom and strakes");
}

#[test]
fn each_count_of_depths() {
    for depths in 1..=200 {
        holds_what_rows_held(&Silo { depths: (1..=depths).map(|i| 50 * i).collect(), ..sample() });
    }
}

#[test]
fn random_silos() {
    let mut random = Random::new(1_991);
    for _ in 0..2_000 {
        holds_what_rows_held(&inputs::silo(&mut random));
    }
}

/// Each order has one number at each place.
#[test]
fn every_place_once() {
    for depths in 1..=200 {
        for order in [COLUMNS, ROWS] {
            let of_depth = |depth| (0..LOADS.len()).map(move |load| order(depths, load, depth));
            let places: BTreeSet<usize> = (0..depths).flat_map(of_depth).collect();
            assert!(places.into_iter().eq(0..LOADS.len() * depths), "{depths} depths");
        }
    }
}
