//! Grain that lies below the brim: how a text and a sheet say it, and the loads beside those of the same silo filled to the brim.

mod common;
mod wrapped;

use common::{text_with, Random, FLAT};
use silo::commands::{self, Format};
use silo::description::Description;
use silo::library::{Loads, P_HE, P_HF, P_VF, P_W, ROW, Z};
use silo::text;
use silo::units::Units;
use wrapped::unwrapped;

fn described(changes: &[(&str, &str)]) -> Description {
    let text = text_with(changes);
    text::read(&text).unwrap_or_else(|errors| panic!("{text}{errors:?}")).description
}

fn loads(silo: &Description) -> Loads {
    let loads = Loads::of(&silo.to_bytes(), silo.strakes.len());
    loads.unwrap_or_else(|refusal| panic!("{refusal:?}: {silo:?}"))
}

#[test]
fn a_text_says_it_exactly() {
    let ways = [
        ("300 mm", 300),
        ("0.3 m", 300),
        ("30cm", 300),
        ("1 mm", 1),
        ("9.999 m", 9999),
        ("4294967295 mm", u32::MAX),
        ("0", 0),
        ("0 mm", 0),
        ("", 0),
        ("-", 0),
    ];
    for (written, headroom) in ways {
        assert_eq!(described(&[("headroom", written)]).headroom, headroom, "{written}");
    }
}

/// Six records without headroom, a seventh with some; one that says 0 is read as none and has the loads of none.
#[test]
fn a_sheet_has_a_seventh_record() {
    let [none, some] = ["0", "300 mm"].map(|headroom| described(&[("headroom", headroom)]));
    assert_eq!(none, described(&[]));
    let six = none.to_bytes();
    let with = |headroom: u32| [&six[..], &[4, 0, 8, 0], &headroom.to_le_bytes()].concat();
    assert_eq!(some.to_bytes(), with(300));
    assert_eq!(Description::from_bytes(&with(300)), Ok(some));
    assert_eq!(Description::from_bytes(&with(0)), Ok(none));
    let page = |sheet: &[u8]| commands::loads("any", sheet, Format::Csv, Units::Whole).output;
    assert_eq!(page(&with(0)), page(&six));
    let explained = |sheet: &[u8]| commands::explain("any", sheet).output;
    assert_eq!(explained(&with(0)), explained(&six));
    let explained = String::from_utf8(explained(&with(300))).expect("UTF-8");
    assert!(explained.contains("\nheadroom = 300 mm  # "), "{explained}");
}

/// A silo with any headroom that leaves grain at the wall, and the same one without.
fn any_silos(random: &mut Random) -> [Description; 2] {
    let width = random.of(&["1300 mm", "5 m", "9 m"]);
    let run = if width == "1300 mm" { "500 mm" } else { "2000 mm" };
    let bottom = if random.below(2) == 0 { &FLAT[..] } else { &[("hopper run", run)] };
    let changes = [&[("diameter", width), ("depths", "every 100 mm")], bottom].concat();
    let without = described(&changes);
    let headroom = 1 + random.below(9999) as u32;
    [Description { headroom, ..without.clone() }, without]
}

/// The silo filled to the brim with the depths that the loads are taken at.
fn at_load_depths(with: &Description, without: &Description) -> Loads {
    let mut depths: Vec<u32> =
        with.depths.iter().map(|z| z.saturating_sub(with.headroom)).collect();
    depths.dedup();
    loads(&Description { depths, ..without.clone() })
}

/// z is the sheet's own; down to the surface every load is 0; below it filling pressures and P_w are those that the silo filled to the
/// brim has as far below its own surface.
#[test]
fn loads_are_taken_below_the_surface() {
    let mut random = Random(13);
    for _ in 0..300 {
        let [with, without] = any_silos(&mut random);
        let (lower, full) = (loads(&with), at_load_depths(&with, &without));
        for (row, z) in lower.rows().zip(&with.depths) {
            assert_eq!(row[Z], *z);
            let depth = z.saturating_sub(with.headroom);
            let same = full.rows().find(|row| row[Z] == depth).expect("the depth");
            assert_eq!(row[P_HF..=P_W], same[P_HF..=P_W], "{z}: {with:?}");
            if depth == 0 {
                assert_eq!(row[P_HF..], [0; ROW - 1], "{z}: {with:?}");
            }
        }
    }
}

/// Strakes have p_he of their lower edge, and the floor rests on p_vf at the wall's foot; no load is greater than without headroom.
#[test]
fn edges_and_bottom_follow_the_surface() {
    let mut random = Random(17);
    for _ in 0..300 {
        let [with, without] = any_silos(&mut random);
        let [lower, full] = [&with, &without].map(loads);
        for ((_, edge), p_he) in with.edges().zip(lower.strakes()) {
            let row = lower.rows().find(|row| u64::from(row[Z]) == edge).expect("the edge");
            assert_eq!(row[P_HE], *p_he, "{with:?}");
        }
        let foot = lower.column(P_VF).last().expect("the foot");
        match with.is_flat() {
            true => assert_eq!(u64::from(lower.floor()), (12 * u64::from(*foot)).div_ceil(10)),
            false => {
                let pairs = lower.hopper().zip(full.hopper());
                assert!(pairs.into_iter().all(|(a, b)| a.1 <= b.1 && a.2 <= b.2), "{with:?}");
            }
        }
        let rows = lower.rows().zip(full.rows());
        assert!(rows.into_iter().all(|(a, b)| a.iter().zip(&b).all(|(a, b)| a <= b)), "{with:?}");
        assert!(lower.floor() <= full.floor());
    }
}

/// With enough headroom a wall may be ten times as high as wide, and higher.
#[test]
fn a_wall_over_ten_widths() {
    let narrow = [("diameter", "500 mm"), ("strakes", "24 x 3 m"), ("depths", "every 400 mm")];
    let silo = |headroom| described(&[&FLAT[..], &narrow, &[("headroom", headroom)]].concat());
    assert!(!silo("67 m").is_accepted());
    let silo = silo("67001 mm");
    assert_eq!((silo.height(), silo.grain_height(), silo.built_height()), (4999, 4999, 72_000));
    let loads = loads(&silo);
    let is_loaded = |row: &[u32]| row[P_HF..].iter().any(|load| *load > 0);
    let first = loads.rows().find(|row| is_loaded(row)).expect("a load");
    assert_eq!(first[Z], 67_200);
}

/// What the text, the table, CSV, JSON and the drawing say of it, and that none of them does without.
#[test]
fn every_output_says_it() {
    let page = |changes: &[(&str, &str)], format| {
        let text = text_with(changes);
        let outcome = commands::loads("bin.silo", text.as_bytes(), format, Units::Whole);
        assert_eq!((outcome.status, outcome.messages.as_str()), (0, ""));
        String::from_utf8(outcome.output).expect("UTF-8")
    };
    let drawing = |changes: &[(&str, &str)]| {
        let outcome = commands::draw("bin.silo", text_with(changes).as_bytes(), Units::Whole);
        String::from_utf8(outcome.output).expect("UTF-8")
    };
    let headroom = [("headroom", "1234 mm")];
    let said: [(Format, &[&str]); 3] = [
        (
            Format::Table,
            &[
                "in strakes of 5 x 2000 mm, headroom g 1234 mm, hopper H 1500 mm",
                " Loads on the wall at depth z below the brim; the grain begins at 1234 mm ",
            ],
        ),
        (Format::Csv, &[" silo,headroom,1234,mm,"]),
        (
            Format::Json,
            &["\"strakes_mm\": [2000, 2000, 2000, 2000, 2000], \"headroom_mm\": 1234, "],
        ),
    ];
    for (format, words) in said {
        let page = unwrapped(&page(&headroom, format));
        assert!(words.iter().all(|words| page.contains(words)), "{page}");
    }
    assert!(drawing(&headroom).contains(">g 1\u{2009}234\u{a0}mm</text>"));
    for none in [&[][..], &[("headroom", "0")]] {
        let pages = said.map(|(format, _)| page(none, format));
        let silent = |page: &String| !page.to_lowercase().contains("headroom");
        assert!(pages.iter().all(silent) && silent(&drawing(none)), "{pages:?}");
    }
}
