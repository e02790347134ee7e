//! Slender and squat silos: the factors shown beside the loads that the library answers, and the kind on every output.

mod any;
mod common;
mod wrapped;

use any::any_silo;
use common::{text_with, Random, FLAT};
use silo::commands::{self, Format};
use silo::description::Description;
use silo::discharge::{Discharge, Shape};
use silo::fraction::Fraction;
use silo::library::{Loads, P_HE, P_HF, P_WE, P_WF};
use silo::text;
use silo::units::Units;
use wrapped::unwrapped;

fn up(factor: Fraction, pressure: u32) -> u128 {
    factor.times(Fraction::whole(pressure)).up()
}

/// p_he, p_we and the strakes' numbers are the filling pressures times the factors shown, rounded up once.
#[test]
fn the_factors_shown_are_those_that_act() {
    let mut random = Random(1411);
    for (shape, least, most) in
        [(Shape::Slender, 150, 900), (Shape::Squat, 101, 149), (Shape::Low, 1, 100)]
    {
        let (mut silos, mut compared) = (0, 0);
        while silos < 3000 {
            let slenderness = least + random.below((most - least + 1) as usize) as u32;
            let silo = any_silo(&mut random, slenderness);
            let Ok(loads) = Loads::of(&silo.to_bytes(), silo.strakes.len()) else { continue };
            let discharge = Discharge::of(&silo);
            if discharge.shape != shape {
                continue;
            }
            for (row, strake) in loads.rows().zip(loads.strakes()) {
                assert_eq!(u128::from(row[P_HE]), up(discharge.horizontal, row[P_HF]), "{silo:?}");
                assert_eq!(u128::from(row[P_WE]), up(discharge.friction, row[P_WF]), "{silo:?}");
                assert_eq!(*strake, row[P_HE], "{silo:?}");
                compared += 1;
            }
            silos += 1;
        }
        println!("{silos} silos {shape:?}: p_he, p_we and strakes at {compared} edges");
    }
}

fn read(changes: &[(&str, &str)]) -> Description {
    text::read(&text_with(changes)).expect("a text").description
}

/// Silos of d_c 5 m with C0 1.40: strakes, the kind with its factors as they are shown.
const KINDS: [(&str, &str); 8] = [
    ("2 x 3000, 1500 mm", SLENDER),
    (
        "2 x 3000, 1499 mm",
        "squat silo: h/d_c 1.4998, discharge factors C_h 1.39984 and C_w 1.09996 (5.34, 5.35)",
    ),
    ("2 x 3 m", "squat silo: h/d_c 1.2, discharge factors C_h 1.16 and C_w 1.04 (5.34, 5.35)"),
    (
        "2501, 2500 mm",
        "squat silo: h/d_c 1.0002, discharge factors C_h 1.00016 and C_w 1.00004 (5.34, 5.35)",
    ),
    ("2 x 2500 mm", "squat silo: h/d_c 1, discharge factors C_h 1 and C_w 1 (5.33)"),
    ("2499, 2500 mm", "squat silo: h/d_c 0.9998, discharge factors C_h 1 and C_w 1 (5.33)"),
    ("200 mm", "squat silo: h/d_c 0.04, discharge factors C_h 1 and C_w 1 (5.33)"),
    ("10 x 3 m", "slender silo: h/d_c 6, discharge factors C_h 1.4 and C_w 1.1 (5.23)"),
];

const SLENDER: &str = "slender silo: h/d_c 1.5, discharge factors C_h 1.4 and C_w 1.1 (5.23)";

#[test]
fn the_kind_at_each_limit() {
    for (strakes, shown) in KINDS {
        let silo = read(&[&FLAT[..], &[("strakes", strakes), ("depths", "0 mm")]].concat());
        assert_eq!(Discharge::of(&silo).shown(), shown);
    }
}

/// h is counted from the grain's surface.
#[test]
fn the_kind_with_headroom() {
    let shown = |headroom| {
        let wall = [("strakes", "5 x 1560 mm"), ("depths", "0 mm"), ("headroom", headroom)];
        Discharge::of(&read(&[&FLAT[..], &wall].concat())).shown()
    };
    assert_eq!(shown("300 mm"), SLENDER);
    assert_eq!(shown("301 mm"), KINDS[1].1);
    assert_eq!(shown("2.8 m"), KINDS[4].1);
}

/// A hopper makes a bin slender, the shorter side counts, and a blank factor acts as it is read.
#[test]
fn what_makes_a_bin_slender() {
    let shape = |changes: &[(&str, &str)]| Discharge::of(&read(changes));
    let low = [("strakes", "2 x 3 m"), ("depths", "0 mm")];
    let flat = shape(&[&FLAT[..], &low].concat());
    let on_hopper = shape(&low);
    assert_eq!((flat.shape, on_hopper.shape), (Shape::Squat, Shape::Slender));
    let sides = |sides| shape(&[("diameter", "-"), ("sides", sides)]).shape;
    assert_eq!(
        [sides("20 x 7 m"), sides("7 x 20 m"), sides("8 x 20 m")].map(Shape::word),
        ["slender", "slender", "squat"]
    );
    let blank = shape(&[&FLAT[..], &low, &[("factor", "")]].concat());
    assert_eq!(blank.horizontal, Fraction { top: 61, bottom: 50 });
}

/// What follows a name up to the end of its line.
fn cells<'a>(page: &'a str, name: &str) -> &'a str {
    let start = format!("silo,{name},");
    let line = page.lines().find(|line| line.starts_with(&start)).expect(name);
    line[start.len()..].trim_end_matches(',')
}

/// h/d_c is 11/9, C_h with 1.40 is 53/45 and C_w is 47/45: no decimals, so each output marks them or has the fractions.
#[test]
fn rounded_factors_are_marked_on_every_output() {
    const SIDES: [(&str, &str); 3] = [("diameter", "-"), ("sides", "9 x 20 m"), FLAT[2]];
    let silo = [&FLAT[..2], &SIDES, &[("strakes", "5 x 2200 mm")]].concat();
    let text = text_with(&silo);
    let loads = |format| {
        let outcome = commands::loads("bin.silo", text.as_bytes(), format, Units::Whole);
        assert!(outcome.status == 0 && common::only_doubts(&outcome.messages));
        String::from_utf8(outcome.output).expect("UTF-8")
    };
    let shown = "squat silo: h/d_c about 1.22222, discharge factors C_h about 1.17778 and C_w about 1.04444 (5.34, 5.35)";
    assert!(unwrapped(&loads(Format::Table)).contains(shown));
    let csv = loads(Format::Csv);
    assert_eq!(
        ["kind", "h/d_c", "C_h", "C_w"].map(|name| cells(&csv, name)),
        [
            "squat",
            "1.22222,rounded from 11/9",
            "1.17778,rounded from 53/45",
            "1.04444,rounded from 47/45"
        ]
    );
    assert!(loads(Format::CsvSemicolon).contains("\nsilo;C_h;1,17778;rounded from 53/45;"));
    let json = "\"kind\": \"squat\", \"h_per_d_c\": {\"top\": 11, \"bottom\": 9}, \
                \"C_h\": {\"top\": 53, \"bottom\": 45}, \"C_w\": {\"top\": 47, \"bottom\": 45}}";
    assert!(loads(Format::Json).contains(json));
    let sheet = commands::sheet("bin.silo", text.as_bytes()).output;
    let explained = commands::explain("bin.sheet", &sheet).output;
    assert!(String::from_utf8(explained).expect("UTF-8").starts_with(&format!("# {shown}\n")));
}

/// A silo that is refused has no factors that act.
#[test]
fn a_refused_sheet_is_explained_without_a_kind() {
    for changes in [("friction", ""), ("diameter", "0"), ("factor", "0.50")] {
        let sheet = commands::sheet("bin.silo", text_with(&[changes]).as_bytes());
        assert_eq!(sheet.status, 1);
        let explained = commands::explain("bin.sheet", &sheet.output).output;
        let explained = String::from_utf8(explained).expect("UTF-8");
        assert!(explained.starts_with("diameter = "), "{explained}");
    }
}
