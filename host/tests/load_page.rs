//! The load page beside the answer list of the same sheet: its lines, its length, and the buffer that it is lent.

mod common;

use common::{root, sample, text_with, FLAT, HEAVIEST};
use silo::commands;
use silo::description::Description;
use silo::library::{self, BOTTOM, ROW};
use silo::text;

type Changes = &'static [(&'static str, &'static str)];

/// 200 depths and 24 strakes.
const LONGEST: Changes =
    &[("diameter", "20 m"), ("strakes", "24 x 2985 mm"), ("depths", "every 360 mm")];

const SILOS: [Changes; 6] = [
    &[],
    &FLAT,
    &[("headroom", "700 mm"), ("depths", "every 500 mm")],
    &[("strakes", "200 mm"), ("depths", "0 mm")],
    LONGEST,
    &HEAVIEST,
];

fn described(changes: Changes) -> Description {
    text::read(&text_with(changes)).expect("a text").description
}

fn page(silo: &Description) -> String {
    let page = library::page(&silo.to_bytes()).expect("an accepted silo");
    String::from_utf8(page).expect("ASCII")
}

fn line<T: std::fmt::Display>(fields: &[T]) -> String {
    fields.iter().map(|field| format!("{field:>9}")).chain(["\n".to_string()]).collect()
}

#[test]
fn a_page_is_the_answer_list_in_fields_of_nine() {
    for changes in SILOS {
        let silo = described(changes);
        let sheet = silo.to_bytes();
        let mut answers = vec![0; library::answers_length(&sheet).expect("an accepted silo")];
        library::fill_loads(&sheet, &mut answers).expect("loads");
        let (depths, strakes) = (silo.depths.len(), silo.strakes.len());
        let (columns, rest) = answers.split_at(ROW * depths);
        let row = |depth| columns.iter().skip(depth).step_by(depths).collect::<Vec<&u32>>();
        let expected: String = [line(&["z", "phf", "pwf", "pvf", "PW", "phe", "pwe", "pp"])]
            .into_iter()
            .chain((0..depths).map(|depth| line(&row(depth))))
            .chain(rest.chunks_exact(1).map(line))
            .collect();
        let page = page(&silo);
        assert_eq!(page, expected);
        assert_eq!(page.len(), 73 * (1 + depths) + 10 * (BOTTOM + strakes));
        assert!(page.is_ascii());
    }
}

#[test]
fn the_longest_page() {
    assert_eq!(page(&described(LONGEST)).len(), 73 * 201 + 10 * 34);
}

/// A space stands before each number of a depth at the greatest loads too.
#[test]
fn fields_never_run_together() {
    let page = page(&described(&HEAVIEST));
    let lines: Vec<&str> = page.lines().collect();
    let (table, single) = lines.split_at(1 + 25);
    for line in table {
        assert!(line.len() == 72 && (0..ROW).all(|field| line.as_bytes()[9 * field] == b' '));
    }
    assert_eq!(table[25].split_whitespace().map(str::len).max(), Some(8));
    assert!(single.iter().all(|line| line.len() == 9));
}

#[test]
fn bytes_past_the_page_keep_what_they_held() {
    for changes in SILOS {
        let silo = described(changes);
        let page = page(&silo);
        for more in [0, 1, 1000] {
            let mut lent: Vec<u8> = (0..page.len() + more).map(|i| i as u8 | 128).collect();
            let past = lent[page.len()..].to_vec();
            assert_eq!(library::fill_page(&silo.to_bytes(), &mut lent), Ok(()));
            assert_eq!(lent, [page.as_bytes(), &past].concat());
        }
    }
}

#[test]
fn lines_about_the_order_are_not_on_the_page() {
    let text = String::from_utf8(sample("corrugated-bin.silo")).expect("UTF-8");
    assert!(text.contains("customer = M. Dupont\n"));
    let silo = text::read(&text).expect("a text").description;
    assert_eq!(commands::page("bin.silo", text.as_bytes()).output, page(&silo).into_bytes());
}

#[test]
fn the_guide_shows_a_page_as_it_prints() {
    let guide = std::fs::read_to_string(root().join("docs/ESTIMATOR.md")).expect("the guide");
    let page = String::from_utf8(sample("barley-bin.page")).expect("ASCII");
    let shown: String = page.lines().map(|line| format!("    {line}\n")).collect();
    assert!(guide.contains(&shown), "{shown}");
}
