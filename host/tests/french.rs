//! A silo's text in French, with accents and without, says the same sheet as in English.

mod common;

use common::{text_with, FLAT};
use silo::commands::{self, Format};
use silo::text;
use silo::units::Units;

/// Lines in English and in French.
const LINES: [(&str, &str); 17] = [
    ("diameter = 5000 mm", "diamètre = 5000 mm"),
    ("weight = 9.0 kN/m3", "poids volumique = 9.0 kN/m3"),
    ("ratio = 0.50", "rapport des pressions = 0.50"),
    ("friction = 0.40", "coefficient de frottement = 0.40"),
    ("factor = 1.40", "coefficient d’amplification = 1.40"),
    ("filling eccentricity = 100 mm", "excentricité de remplissage = 100 mm"),
    ("outlet eccentricity = 200 mm", "Excentricité de vidange = 200 mm"),
    ("hopper height = 1500 mm", "hauteur de trémie = 1500 mm"),
    ("hopper run = 2000 mm", "déport de trémie = 2000 mm"),
    ("strakes = 5 x 2000 mm", "viroles = 5 x 2000 mm"),
    ("depths = strake edges", "profondeurs = bords de viroles"),
    ("headroom = 300 mm", "creux = 300 mm"),
    ("stiffeners = yes", "raidisseurs = oui"),
    ("wall = corrugated", "paroi = tôle ondulée"),
    ("project = Silo 2", "projet = Silo 2"),
    ("author = A. Ionescu", "rédacteur = A. Ionescu"),
    ("note = B", "remarque = B"),
];

fn without_accents(text: &str) -> String {
    let plain = [("è", "e"), ("é", "e"), ("ô", "o"), ("É", "E"), ("’", "'")];
    plain.iter().fold(text.to_string(), |text, (from, to)| text.replace(from, to))
}

/// The loads' table of a text, which shows its labels and wall too.
fn loads(text: &str) -> Vec<u8> {
    let outcome = commands::loads("tower.silo", text.as_bytes(), Format::Json, Units::Whole);
    let said = String::from_utf8_lossy(&outcome.output);
    assert_eq!(outcome.status, 0, "{text}{said}");
    outcome.output
}

#[test]
fn french_lines_say_the_same() {
    let [english, french]: [String; 2] = [
        LINES.iter().map(|(english, _)| format!("{english}\n")).collect(),
        LINES.iter().map(|(_, french)| format!("{french}\n")).collect(),
    ];
    let expected = loads(&english);
    for text in [&french, &without_accents(&french), &french.to_uppercase().replace(" MM", " mm")] {
        let text = text.replace("SILO 2", "Silo 2").replace("A. IONESCU", "A. Ionescu");
        assert_eq!(loads(&text), expected, "{text}");
    }
}

/// The same of lines that stand in place of others.
#[test]
fn french_ways_to_say_it() {
    let four = ["weight", "ratio", "friction", "factor"].map(|name| (name, "-"));
    let bin = [&four[..], &FLAT[..2], &[("diameter", "-"), ("depths", "-")]].concat();
    let english = [
        ("sides", "4 x 6 m"),
        ("product", "maize"),
        ("wall", "concrete"),
        ("floor", "flat"),
        ("depths", "every 500 mm"),
    ];
    let french = [
        ("côtés", "4 x 6 mètres"),
        ("produit", "maïs"),
        ("paroi", "béton"),
        ("fond", "plat"),
        ("profondeurs", "tous les 500 mm"),
    ];
    let sheet = |lines: &[(&str, &str)]| {
        let text = text_with(&[&bin[..], lines].concat());
        text::read(&text).unwrap_or_else(|messages| panic!("{messages:?}")).description
    };
    assert_eq!(sheet(&french), sheet(&english));
    let hopper = text_with(&[
        ("hopper height", "-"),
        ("hopper run", "-"),
        ("angle de trémie", "45 degrés"),
        ("largeur de l'orifice", "600 mm"),
    ]);
    let hopper = text::read(&hopper).expect("a hopper").description;
    assert_eq!((hopper.hopper_height, hopper.hopper_run), (2200, 2200));
}

/// A named wall that is not the table's has no row of it, whatever its numbers.
#[test]
fn a_corrugated_wall_is_no_concrete() {
    let wheat =
        [("weight", "9.0 kN/m3"), ("ratio", "0.55"), ("friction", "0.40"), ("factor", "1.30")];
    for (wall, shown) in [
        ("-", "as table 7.1 wheat on concrete: weight"),
        ("concrete", "as table 7.1 wheat on concrete: weight"),
        ("corrugated", "on corrugated wall, by its numbers: weight"),
        ("steel", "on steel, by its numbers: weight"),
    ] {
        let text = text_with(&[&wheat[..], &[("wall", wall)]].concat());
        let outcome = commands::loads("t.silo", text.as_bytes(), Format::Table, Units::Whole);
        let table = String::from_utf8(outcome.output).expect("UTF-8");
        let words = table.split_whitespace().collect::<Vec<&str>>().join(" ");
        assert!(words.contains(shown), "{table}");
        assert_eq!(words.contains("table 7.1 wheat"), shown.contains("wheat"), "{table}");
    }
}
