//! The page of C-15 written out for document 01's sample, what the two calls answer to it, and to a long bin of C-17, and buffers far longer
//! than a page.

use reference::answers::{Answers, ROWS};
use reference::compare::Comparison;
use reference::inputs::sample;
use reference::linked::Linked;
use reference::sheet::{told, Silo};
use reference::{page, runs};

const PAGE: &str = "        z      phf      pwf      pvf       PW      phe      pwe       pp
        0        0        0        0        0        0        0        0
     5000    17597     7345    33119    21541    24636     8080     4928
    57377
        0
        0
        0
        0
        0
        0
        0
        0
        0
    12486
    20965
    26723
    30632
    33288
";

#[test]
fn as_written() {
    let silo = sample();
    let numbers = page::numbers(PAGE.as_bytes(), 2).expect("numbers in every field");
    assert_eq!(numbers.len(), silo.answers_length());
    assert_eq!(page::text(&Answers::read(ROWS, 2, &numbers)), PAGE);
    assert_eq!(page::length(&silo), PAGE.len());
    assert_eq!(page::printed(Ok(PAGE.into())), PAGE);
    assert_eq!(page::printed(Err(17)), "REFUSED 17\n");
    assert_eq!(page::printed(Err(20)), "REFUSED 20\n");
}

#[test]
fn its_answers() {
    let (silo, due) = (sample(), PAGE.len());
    let long = Silo { section: vec![5_000, 15_001], ..sample() };
    for measured in [&silo, &long] {
        assert_eq!(told(&measured.sheet(), page::length), (1 << 32) + due as u64);
        let listing = Silo { depths: vec![10_001], ..measured.clone() };
        assert_eq!(told(&listing.sheet(), page::length), 11);
    }
    let answers = [0, due - 1, due, due + 1].map(|length| page::answer(Ok(&silo), length));
    assert_eq!(answers, [18, 18, 0, 0]);
    assert_eq!([0, due].map(|length| page::answer(Err(11), length)), [11, 11], "before 18");
}

#[test]
fn long_buffers() {
    runs::long_buffers(&mut Comparison::with(&Linked)).unwrap();
}
