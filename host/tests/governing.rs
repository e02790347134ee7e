//! The governing call behind slices: the caller's own list is handed back.

mod common;

use common::text_with;
use silo::library::{governing, Loads};
use silo::text;
use std::ptr;

/// The strakes of one bin with a product of that friction.
fn strakes(friction: &str) -> Vec<u32> {
    let text = text_with(&[("friction", friction)]);
    let silo = text::read(&text).expect(&text).description;
    let loads = Loads::of(&silo.to_bytes(), silo.strakes.len());
    loads.expect("an accepted silo").strakes().to_vec()
}

#[test]
fn of_two_products_the_one_with_the_greater_load_at_the_foot() {
    let [smooth, rough] = ["0.30", "0.40"].map(strakes);
    assert!(ptr::eq(governing(&smooth, &rough), &smooth[..]));
    assert!(ptr::eq(governing(&rough, &smooth), &smooth[..]));
    assert!(ptr::eq(governing(&rough, &rough.clone()), &rough[..]));
}

#[test]
fn an_empty_part_of_the_first_if_lengths_differ_or_are_0() {
    let list = [3, 2, 1];
    for (first, second) in [(&list[..2], &list[..]), (&list[..], &list[1..]), (&list[1..1], &[])] {
        assert!(ptr::eq(governing(first, second), &first[..0]));
    }
}
