//! A factor that is left blank: the loads beside those of the same silo with a factor written in, and what every output says of it.

mod common;

use common::{text_with, FLAT};
use silo::commands::{self, Format};
use silo::description::Description;
use silo::discharge::{Discharge, Shape};
use silo::library::{Loads, Refusal, P_HE, P_P};
use silo::name::Name;
use silo::text;
use silo::units::Units;

type Changes<'a> = &'a [(&'a str, &'a str)];

/// Wall, floor and headroom of silos of d 5 m.
const SLENDER: Changes = &[("depths", "every 500 mm"), ("outlet eccentricity", "400 mm")];
const SLENDER_FLAT: Changes = &[FLAT[0], FLAT[1], FLAT[2], SLENDER[0]];
const SQUAT: Changes = &[("strakes", "3 x 1500 mm"), SLENDER[0], SLENDER[1]];
const SQUAT_FLAT: Changes =
    &[("strakes", "5 x 1400 mm"), ("headroom", "600 mm"), FLAT[0], FLAT[1], FLAT[2], SLENDER[0]];
const LOW: Changes = &[("strakes", "2 x 1500 mm"), FLAT[0], FLAT[1], FLAT[2], SLENDER[0]];

const SILOS: [(Changes, Shape); 5] = [
    (SLENDER, Shape::Slender),
    (SLENDER_FLAT, Shape::Slender),
    (SQUAT, Shape::Squat),
    (SQUAT_FLAT, Shape::Squat),
    (LOW, Shape::Low),
];

fn written(silo: Changes, factor: &str) -> String {
    text_with(&[silo, &[("factor", factor)]].concat())
}

fn described(silo: Changes, factor: &str) -> Description {
    text::read(&written(silo, factor)).expect("a text").description
}

fn page(silo: Changes, factor: &str, format: Format) -> String {
    let text = written(silo, factor);
    let outcome = commands::loads("bin.silo", text.as_bytes(), format, Units::Whole);
    assert_eq!((outcome.status, outcome.messages.as_str()), (0, ""), "{text}");
    String::from_utf8(outcome.output).expect("UTF-8")
}

fn drawing(silo: Changes, factor: &str) -> String {
    let outcome = commands::draw("bin.silo", written(silo, factor).as_bytes(), Units::Whole);
    String::from_utf8(outcome.output).expect("UTF-8")
}

/// Each format, and what stands before and after its loads.
const LOADS: [(Format, &str, &str); 4] = [
    (Format::Table, "\nLoads on the wall at depth z", "\nNotes\n"),
    (Format::Csv, "\npart,number,", "\nnote,1,"),
    (Format::CsvSemicolon, "\npart;number;", "\nnote;1;"),
    (Format::Json, "\n  \"units\": ", "\n  \"notes\": "),
];

#[test]
fn a_blank_factor_prints_the_loads_of_1_55() {
    for (silo, _) in SILOS {
        for (format, before, after) in LOADS {
            let [blank, zero, rough] = ["", "0.00", "1.55"].map(|factor| {
                let page = page(silo, factor, format);
                let (_, loads) = page.split_once(before).expect(before);
                loads.split_once(after).expect(after).0.to_string()
            });
            assert!(blank.lines().count() > 10, "{blank}");
            assert_eq!([&blank, &zero], [&rough; 2], "{silo:?}");
        }
    }
}

/// The loads at a depth that the factor acts on.
const RAISED: [usize; 2] = [P_HE, P_P];

/// p_he, p_p and the strakes' numbers are no smaller, and greater unless the silo is no higher than wide; no other number differs.
#[test]
fn beside_1_35_discharge_alone_is_greater() {
    for (silo, shape) in SILOS {
        let [blank, soft] = ["", "1.35"].map(|factor| {
            let silo = described(silo, factor);
            assert_eq!(Discharge::of(&silo).shape, shape);
            Loads::of(&silo.to_bytes(), silo.strakes.len()).expect("an accepted silo")
        });
        let mut greater = [0; 3];
        for (row, soft) in blank.rows().zip(soft.rows()) {
            for (i, (load, soft)) in row.iter().zip(&soft).enumerate() {
                match RAISED.iter().position(|place| *place == i) {
                    Some(raised) => {
                        assert!(load >= soft, "{silo:?}");
                        greater[raised] += u32::from(load > soft);
                    }
                    None => assert_eq!(load, soft, "{i}: {silo:?}"),
                }
            }
        }
        for (strake, soft) in blank.strakes().iter().zip(soft.strakes()) {
            assert!(strake >= soft, "{silo:?}");
            greater[2] += u32::from(strake > soft);
        }
        assert_eq!(greater.map(|count| count > 0), [shape != Shape::Low; 3], "{silo:?}");
        assert_eq!(blank.floor(), soft.floor());
        assert!(blank.hopper().eq(soft.hopper()), "{silo:?}");
    }
}

#[test]
fn a_blank_factor_is_explained_and_reads_back() {
    const SHOWN: &str =
        "\nfactor = 0.00  # blank: taken as 1.55 (7.4 at 40 degrees); a soft product, up to 30, needs 1.35\n";
    for (silo, _) in SILOS {
        let sheet = |text: &str| commands::sheet("bin.silo", text.as_bytes()).output;
        let bytes = sheet(&written(silo, ""));
        let explained = commands::explain("bin.sheet", &bytes).output;
        let explained = String::from_utf8(explained).expect("UTF-8");
        assert!(explained.contains(SHOWN), "{explained}");
        assert_eq!(sheet(&explained), bytes);
        assert_eq!(text::read(&explained).expect("a text").description.product.factor, 0);
    }
}

/// The factor taken beside the one of the sheet; of a factor that is written in, that one alone.
#[test]
fn every_output_names_the_factor_taken() {
    let said: [(Format, &str); 5] = [
        (Format::Table, " factor C0 blank, taken as 1.55 (7.4 at 40 degrees)\n"),
        (
            Format::Csv,
            "\nsilo,factor,1.55,for a blank one: 7.4 at 40 degrees,,,,,,,,,,,\nsilo,factor on the sheet,0.00,blank,,,,,,,,,,,\n",
        ),
        (
            Format::CsvSemicolon,
            "\nsilo;factor;1,55;for a blank one: 7.4 at 40 degrees;;;;;;;;;;;\nsilo;factor on the sheet;0,00;blank;;;;;;;;;;;\n",
        ),
        (Format::Json, "\"factor_hundredths\": 0, \"factor_used_hundredths\": 155, "),
        (Format::Json, "Factor C0 is blank and taken as 1.55, equation 7.4 at an internal"),
    ];
    for (format, words) in said {
        let page = page(SLENDER, "", format);
        assert!(page.contains(words), "{page}");
    }
    assert!(drawing(SLENDER, "").contains("taken as 1.55 (7.4\u{a0}at\u{a0}40\u{a0}degrees)"));
    for factor in ["1.35", "1.55"] {
        let pages = said.map(|(format, _)| page(SLENDER, factor, format));
        let silent = |page: &String| !page.contains("blank") && !page.contains("on the sheet");
        assert!(pages.iter().all(silent) && silent(&drawing(SLENDER, factor)), "{pages:?}");
        let sent = factor.replace('.', "");
        let json = format!("\"factor_hundredths\": {sent}, \"factor_used_hundredths\": {sent}, ");
        assert!(page(SLENDER, factor, Format::Json).contains(&json));
    }
}

/// The limits that messages give name it too.
#[test]
fn limits_name_the_factor_taken() {
    let taken = described(SLENDER, "").product.factor_used();
    let named = format!("for {}.{} (7.4 at 40 degrees)", taken / 100, taken % 100);
    for limits in [Name::Factor.limits(), Refusal::PRODUCT.meaning()] {
        assert!(limits.ends_with(&named), "{limits}");
    }
}

/// Rule 7 judges the number of the sheet.
#[test]
fn a_factor_is_judged_as_it_is_sent() {
    for (factor, accepted) in [
        ("", true),
        ("0.01", false),
        ("0.99", false),
        ("1.00", true),
        ("2.00", true),
        ("2.01", false),
    ] {
        assert_eq!(described(SLENDER, factor).is_accepted(), accepted, "{factor}");
    }
}
