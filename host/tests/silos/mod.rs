//! Silos to be drawn: ordinary ones, the largest and smallest, and any that a sheet may have; labels of the greatest length.
#![allow(dead_code)]

use super::common::{sample, text_with, Random, FLAT};
use silo::catalogue::Origin;
use silo::description::Description;
use silo::report::Labels;
use silo::text;
use silo::units::Units;

/// What differs from the silo of `common`; `true` has a flat floor.
pub type Case = (&'static str, bool, &'static [(&'static str, &'static str)]);

pub const CASES: [Case; 57] = [
    ("bin", false, &[]),
    ("tower", true, &[]),
    ("eccentric-tower", true, &[("e_o", "1 m"), ("e_i", "20 mm")]),
    (
        "widest-tower",
        true,
        &[("diameter", "48 m"), ("strakes", "24 x 3 m"), ("e_i", "12 m"), ("e_o", "12 m")],
    ),
    (
        "slender-tower",
        true,
        &[("diameter", "7300 mm"), ("strakes", "24 x 3 m"), ("e_o", "1825 mm")],
    ),
    (
        "heaviest",
        true,
        &[
            ("diameter", "48 m"),
            ("strakes", "24 x 3 m"),
            ("weight", "30 kN/m3"),
            ("ratio", "1.00"),
            ("friction", "0.10"),
            ("factor", "2.00"),
            ("e_o", "12 m"),
        ],
    ),
    ("one-strake", true, &[("diameter", "2 m"), ("strakes", "3 m"), ("e_i", "500 mm")]),
    (
        "slender-strake",
        true,
        &[("diameter", "500 mm"), ("strakes", "3 m"), ("e_i", "1 mm"), ("e_o", "125 mm")],
    ),
    ("smallest", true, &[("diameter", "500 mm"), ("strakes", "4 x 200 mm")]),
    ("low-strakes", true, &[("diameter", "500 mm"), ("strakes", "24 x 200 mm")]),
    ("mixed-strakes", true, &[("strakes", "3 m, 10 x 200 mm, 3 m, 12 x 200 mm"), ("e_i", "1 m")]),
    (
        "smallest-bin",
        false,
        &[
            ("diameter", "500 mm"),
            ("strakes", "3 x 200 mm"),
            ("hopper height", "200 mm"),
            ("hopper run", "249 mm"),
            ("e_o", "125 mm"),
            ("e_i", "125 mm"),
        ],
    ),
    (
        "largest-bin",
        false,
        &[
            ("diameter", "50 m"),
            ("strakes", "24 x 3 m"),
            ("hopper height", "25 m"),
            ("hopper run", "24999 mm"),
            ("e_i", "12500 mm"),
            ("e_o", "12500 mm"),
        ],
    ),
    (
        "wide-outlet",
        false,
        &[
            ("diameter", "50 m"),
            ("strakes", "24 x 3 m"),
            ("hopper height", "25 m"),
            ("hopper run", "1 mm"),
            ("e_i", "12500 mm"),
            ("e_o", "12500 mm"),
        ],
    ),
    (
        "slender-bin",
        false,
        &[
            ("diameter", "10 m"),
            ("strakes", "24 x 3 m"),
            ("hopper height", "25 m"),
            ("hopper run", "4 m"),
            ("e_o", "999 mm"),
        ],
    ),
    (
        "high-hopper",
        false,
        &[
            ("diameter", "16 m"),
            ("strakes", "200 mm"),
            ("hopper height", "25 m"),
            ("hopper run", "7999 mm"),
            ("e_o", "4 m"),
        ],
    ),
    (
        "strakes-on-a-high-hopper",
        false,
        &[
            ("diameter", "19 m"),
            ("strakes", "24 x 200 mm"),
            ("hopper height", "25 m"),
            ("hopper run", "5 m"),
            ("e_i", "4750 mm"),
            ("e_o", "4499 mm"),
        ],
    ),
    (
        "half-hopper",
        false,
        &[
            ("diameter", "9 m"),
            ("strakes", "12 x 500 mm"),
            ("hopper height", "8 m"),
            ("hopper run", "4400 mm"),
            ("e_o", "101 mm"),
        ],
    ),
    ("tiny-outlet", false, &[("hopper run", "2499 mm"), ("e_o", "1 mm")]),
    ("passed-by-little", false, &[("hopper run", "2499 mm"), ("e_o", "2 mm")]),
    (
        "smallest-hopper",
        false,
        &[("hopper height", "1 mm"), ("hopper run", "1 mm"), ("e_o", "1250 mm")],
    ),
    ("low-hopper", false, &[("hopper height", "729 mm"), ("hopper run", "2 m"), ("e_o", "1 m")]),
    (
        "narrow-rectangle",
        true,
        &[
            ("diameter", "-"),
            ("sides", "1500 x 500 mm"),
            ("strakes", "8 x 600 mm"),
            ("e_i", "125 mm"),
        ],
    ),
    (
        "rectangular-bin",
        false,
        &[
            ("diameter", "-"),
            ("sides", "500 x 1500 mm"),
            ("strakes", "10 x 300 mm"),
            ("hopper height", "900 mm"),
            ("hopper run", "100 mm"),
            ("e_o", "125 mm"),
        ],
    ),
    ("lowest-store", true, &[("diameter", "50 m"), ("strakes", "200 mm")]),
    (
        "low-store",
        true,
        &[("diameter", "50 m"), ("strakes", "3 x 1 m"), ("e_i", "12.5 m"), ("e_o", "12500 mm")],
    ),
    (
        "low-store-of-many-strakes",
        true,
        &[("diameter", "50 m"), ("strakes", "24 x 200 mm"), ("e_i", "1 mm"), ("e_o", "1 mm")],
    ),
    (
        "store-on-a-hopper",
        false,
        &[
            ("diameter", "50 m"),
            ("strakes", "2 x 3 m"),
            ("hopper height", "12 m"),
            ("hopper run", "24 m"),
            ("e_o", "1000 mm"),
        ],
    ),
    (
        "store-on-the-highest-hopper",
        false,
        &[
            ("diameter", "50 m"),
            ("strakes", "24 x 200 mm"),
            ("hopper height", "25 m"),
            ("hopper run", "24999 mm"),
            ("e_o", "12500 mm"),
        ],
    ),
    (
        "store-on-a-low-hopper",
        false,
        &[
            ("diameter", "50 m"),
            ("strakes", "3 m"),
            ("hopper height", "4 m"),
            ("hopper run", "10 m"),
            ("e_i", "12.5 m"),
        ],
    ),
    (
        "store-on-the-lowest-hopper",
        false,
        &[
            ("diameter", "50 m"),
            ("strakes", "200 mm"),
            ("hopper height", "1 mm"),
            ("hopper run", "1 mm"),
            ("e_i", "12.5 m"),
            ("e_o", "1 mm"),
        ],
    ),
    ("as-high-as-wide", true, &[("diameter", "8 m"), ("strakes", "8 x 1 m"), ("e_i", "1 m")]),
    ("just-squat", true, &[("strakes", "2 x 3000, 1499 mm")]),
    ("smallest-store", true, &[("diameter", "500 mm"), ("strakes", "200 mm"), ("e_o", "125 mm")]),
    (
        "rectangular-store",
        true,
        &[
            ("diameter", "-"),
            ("sides", "50 x 49.999 m"),
            ("strakes", "2 x 3000 mm"),
            ("e_o", "12 m"),
        ],
    ),
    (
        "heaviest-store",
        false,
        &[
            ("diameter", "49999 mm"),
            ("strakes", "24 x 2 m"),
            ("hopper height", "25 m"),
            ("hopper run", "24 m"),
            ("weight", "30 kN/m3"),
            ("ratio", "1.00"),
            ("friction", "0.10"),
            ("factor", "2.00"),
            ("e_o", "12 m"),
        ],
    ),
    ("headroom", false, &[("headroom", "300 mm"), ("e_i", "200 mm")]),
    ("least-headroom", true, &[("headroom", "1 mm"), ("e_i", "1250 mm")]),
    ("blank-factor-of-a-tower", true, &[("factor", "")]),
    (
        "many-notes",
        false,
        &[("factor", ""), ("strakes", "2 x 2 m"), ("headroom", "300 mm"), ("e_o", "1250 mm")],
    ),
    ("headroom-to-an-edge", false, &[("headroom", "2 m"), ("e_o", "1250 mm")]),
    (
        "headroom-over-edges",
        true,
        &[("strakes", "20 x 500 mm"), ("headroom", "3 m"), ("e_i", "1 m")],
    ),
    ("half-headroom", false, &[("headroom", "5 m"), ("e_i", "1250 mm")]),
    ("greatest-headroom", false, &[("headroom", "9999 mm"), ("e_i", "500 mm")]),
    ("greatest-headroom-over-a-floor", true, &[("headroom", "9999 mm")]),
    (
        "widest-tower-with-headroom",
        true,
        &[("diameter", "48 m"), ("strakes", "24 x 3 m"), ("headroom", "12345 mm"), ("e_i", "12 m")],
    ),
    (
        "slender-tower-with-headroom",
        true,
        &[
            ("diameter", "7300 mm"),
            ("strakes", "24 x 3 m"),
            ("headroom", "800 mm"),
            ("e_i", "1825 mm"),
        ],
    ),
    (
        "wall-over-ten-widths",
        true,
        &[
            ("diameter", "500 mm"),
            ("strakes", "24 x 3 m"),
            ("headroom", "67001 mm"),
            ("e_i", "125 mm"),
        ],
    ),
    (
        "largest-bin-with-headroom",
        false,
        &[
            ("diameter", "50 m"),
            ("strakes", "24 x 3 m"),
            ("hopper height", "25 m"),
            ("hopper run", "24999 mm"),
            ("headroom", "71999 mm"),
            ("e_i", "12500 mm"),
            ("e_o", "12500 mm"),
        ],
    ),
    (
        "low-store-with-headroom",
        true,
        &[("diameter", "50 m"), ("strakes", "3 x 1 m"), ("headroom", "400 mm"), ("e_i", "12.5 m")],
    ),
    (
        "lowest-store-with-headroom",
        true,
        &[("diameter", "50 m"), ("strakes", "200 mm"), ("headroom", "199 mm")],
    ),
    (
        "store-on-a-hopper-with-headroom",
        false,
        &[
            ("diameter", "50 m"),
            ("strakes", "2 x 3 m"),
            ("hopper height", "12 m"),
            ("hopper run", "24 m"),
            ("headroom", "1500 mm"),
            ("e_i", "1 mm"),
        ],
    ),
    (
        "smallest-bin-with-headroom",
        false,
        &[
            ("diameter", "500 mm"),
            ("strakes", "3 x 200 mm"),
            ("hopper height", "200 mm"),
            ("hopper run", "249 mm"),
            ("headroom", "60 mm"),
            ("e_i", "125 mm"),
        ],
    ),
    (
        "wide-bin-on-a-small-hopper",
        false,
        &[
            ("diameter", "30 m"),
            ("strakes", "3 x 1500 mm"),
            ("hopper height", "400 mm"),
            ("hopper run", "500 mm"),
            ("headroom", "500 mm"),
            ("e_i", "7500 mm"),
            ("e_o", "7500 mm"),
        ],
    ),
    (
        "low-strakes-on-a-hopper",
        false,
        &[("diameter", "4 m"), ("strakes", "24 x 200 mm"), ("hopper run", "1500 mm")],
    ),
    (
        "low-strakes-on-a-wide-hopper",
        false,
        &[
            ("diameter", "20 m"),
            ("strakes", "24 x 200 mm"),
            ("hopper height", "6 m"),
            ("hopper run", "8 m"),
        ],
    ),
    ("foot-between-steps", true, &[("strakes", "2 x 1230, 2 x 1170, 243 mm"), ("e_i", "1250 mm")]),
];

pub fn described(text: &str) -> (Description, Origin) {
    let text = text::read(text).unwrap_or_else(|errors| panic!("{text}: {errors:?}"));
    (text.description, text.origin)
}

pub fn case(flat: bool, changes: &[(&str, &str)]) -> String {
    let long = |name| match name {
        "e_i" => "filling eccentricity",
        "e_o" => "outlet eccentricity",
        name => name,
    };
    let changes = changes.iter().map(|(name, value)| (long(*name), *value));
    let bottom: &[(&str, &str)] = if flat { &FLAT } else { &[] };
    let depths = [("depths", "0 mm")];
    text_with(&[&depths, bottom, &changes.collect::<Vec<(&str, &str)>>()].concat())
}

/// Labels of the greatest length: 60 characters each, 200 the note.
pub fn labels(fill: &str) -> Labels {
    let names = ["project", "customer", "place", "author", "date", "revision", "note"];
    let text = |name: &str| {
        let most = if name == "note" { 200 } else { 60 };
        fill.chars().cycle().take(most).collect::<String>().trim().to_string()
    };
    names.iter().map(|name| (*name, text(name))).collect()
}

/// Labels and units of a drawing, with the end of its name: without labels and with those of the greatest length, in Pa and kPa.
pub fn filled() -> [(&'static str, Labels, Units); 4] {
    let plain = "Grain store no. 7 of the <Lower & Upper> \"Mill\", owner's yard ";
    [
        ("", Labels::new(), Units::Whole),
        ("-labels", labels(plain), Units::Whole),
        ("-kpa", labels("W"), Units::Kilo),
        ("-wide", labels("粮仓 Щ"), Units::Whole),
    ]
}

/// The text of every case and of samples, with its name.
pub fn texts() -> Vec<(String, String)> {
    let mut texts: Vec<(String, String)> = CASES
        .iter()
        .map(|(name, flat, changes)| (name.to_string(), case(*flat, changes)))
        .collect();
    for name in
        ["wheat-tower", "barley-bin", "cement", "flat-store", "headroom-bin", "blank-factor"]
    {
        let text = String::from_utf8(sample(&format!("{name}.silo"))).expect(name);
        texts.push((name.to_string(), text));
    }
    texts
}

/// A silo of any size that a sheet may have, most of them accepted.
pub fn any_silo(random: &mut Random) -> String {
    let width = random.of(&[500, 700, 1500, 4000, 9000, 20_000, 50_000]) as usize;
    let strakes: Vec<String> =
        (0..1 + random.below(24)).map(|_| random.of(&[200, 400, 1200, 3000]).to_string()).collect();
    let run = (1 + random.below(width / 2 - 1)) / random.of(&[1, 1, 4, 100]);
    let steeper = random.of(&[100, 5000, 20_000]);
    let height = run / 2 + 1 + random.below(steeper);
    let mut millimetres = |most: usize| format!("{} mm", random.below(most + 1) * random.below(2));
    let (filling, outlet) = (millimetres(width / 4), millimetres(width / 4));
    let headroom = millimetres(200 * strakes.len());
    let lines = [
        ("headroom", headroom),
        ("factor", random.of(&["1.40", ""]).to_string()),
        ("diameter", format!("{width} mm")),
        ("strakes", format!("{} mm", strakes.join(", "))),
        ("filling eccentricity", filling),
        ("outlet eccentricity", outlet),
        ("hopper height", format!("{} mm", height.min(25_000))),
        ("hopper run", format!("{} mm", run.max(1))),
        ("depths", "0 mm".to_string()),
    ];
    let lines = lines.each_ref().map(|(name, value)| (*name, value.as_str()));
    let flat = if random.below(3) == 0 { &FLAT[..] } else { &[] };
    text_with(&[&lines[..], flat].concat())
}
