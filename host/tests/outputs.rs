//! What every output says beside the loads: the order's lines, the product's origin, what the loads leave out, the program; and the loads
//! in kPa and in both kinds of separated values.

mod common;
mod wrapped;

use common::{stored, text_with, FLAT, HEAVIEST};
use silo::commands::{self, Format};
use silo::units::Units;
use wrapped::unwrapped;

type Changes = &'static [(&'static str, &'static str)];

fn output(changes: Changes, format: Format, units: Units) -> String {
    let outcome = commands::loads("tower.silo", text_with(changes).as_bytes(), format, units);
    assert!(outcome.status == 0 && common::only_doubts(&outcome.messages), "{changes:?}");
    String::from_utf8(outcome.output).expect("UTF-8")
}

fn drawing(changes: Changes) -> String {
    let outcome = commands::draw("tower.silo", text_with(changes).as_bytes(), Units::Whole);
    assert!(outcome.status == 0 && common::only_doubts(&outcome.messages), "{changes:?}");
    String::from_utf8(outcome.output).expect("UTF-8")
}

const BY_NAME: [(&str, &str); 4] =
    [("weight", "-"), ("ratio", "-"), ("friction", "-"), ("factor", "-")];

/// Silos, and how their product is shown.
const PRODUCTS: [(Changes, &str); 9] = [
    (&[], "by its numbers: weight 9000"),
    (
        &[("ratio", "0.55"), ("friction", "0.30"), ("factor", "1.30")],
        "as table 7.1 wheat on steel: weight 9000",
    ),
    (&[("wall", "corrugated")], "on corrugated wall, by its numbers: weight 9000"),
    (
        &[BY_NAME[0], BY_NAME[1], BY_NAME[2], BY_NAME[3], ("product", "corn"), ("wall", "steel")],
        "maize on steel, table 7.1: weight 8500",
    ),
    (
        &[BY_NAME[0], BY_NAME[1], BY_NAME[2], BY_NAME[3], ("product", "blé"), ("wall", "béton")],
        "wheat on concrete, table 7.1: weight 9000",
    ),
    (
        &[BY_NAME[0], BY_NAME[1], BY_NAME[3], ("product", "wheat"), ("friction", "0.45")],
        "wheat, table 7.1 with own friction: weight 9000",
    ),
    (
        &[
            BY_NAME[0],
            BY_NAME[1],
            BY_NAME[3],
            ("product", "wheat"),
            ("wall", "Bolted galvanised"),
            ("friction", "0.45"),
        ],
        "wheat on bolted galvanised wall, table 7.1 with own friction: weight 9000",
    ),
    (
        &[
            BY_NAME[1],
            BY_NAME[2],
            BY_NAME[3],
            ("product", "Maïs"),
            ("wall", "steel"),
            ("weight", "8 kN/m3"),
        ],
        "maize on steel, table 7.1 with own weight: weight 8000",
    ),
    (&[("factor", "")], "factor C0 blank, taken as 1.55 (7.4 at 40 degrees)"),
];

#[test]
fn a_product_is_shown_with_its_origin() {
    for (changes, shown) in PRODUCTS {
        assert!(
            unwrapped(&output(changes, Format::Table, Units::Whole)).contains(shown),
            "{shown}"
        );
        let origin = shown.split(':').next().filter(|_| shown.contains(':'));
        let Some(origin) = origin else { continue };
        for page in [
            output(changes, Format::Csv, Units::Whole),
            output(changes, Format::CsvSemicolon, Units::Whole),
            output(changes, Format::Json, Units::Whole),
            drawing(changes),
        ] {
            assert!(page.contains(origin), "{origin}: {page}");
        }
    }
}

/// h/d_c 1.1 and 0.7 with the hopper, 0.4 and 2 without it.
const SQUAT: Changes = &[("strakes", "2 x 2000 mm"), ("depths", "0 mm")];
const LOW: Changes = &[("strakes", "2000 mm"), ("depths", "0 mm")];
const LOW_FLAT: Changes = &[LOW[0], LOW[1], FLAT[0], FLAT[1], FLAT[2]];
const HEADROOM: Changes = &[("headroom", "300 mm")];
const LOW_HEADROOM: Changes = &[LOW[0], LOW[1], FLAT[0], FLAT[1], FLAT[2], HEADROOM[0]];

/// A note's words, and silos with and without it.
const NOTES: [(&str, &[Changes], &[Changes]); 16] = [
    ("ENV 1991-4:1995, which EN 1991-4:2006 has replaced; characteristic values", &[&[]], &[]),
    ("P_w is the filling value", &[&[], &[("diameter", "-"), ("sides", "4.5 x 6 m")]], &[]),
    ("on discharge C_w 1.1, the factor on wall friction, applies to it too (5.20)", &[&[]], &[SQUAT, LOW]),
    ("on discharge C_w 1.02, the factor on wall friction, applies to it too (5.20)", &[SQUAT], &[&[], LOW]),
    ("C_w is 1, so discharge adds nothing to it (5.33)", &[LOW, LOW_FLAT], &[&[], SQUAT]),
    (
        "patch load (5.36) and pressure near the surface (5.3, 3) are not reduced; both err on the heavy side",
        &[SQUAT],
        &[&[], LOW, LOW_FLAT],
    ),
    (
        "the patch load is given, which 5.33 makes 0, and the pressure near the surface is not reduced (5.3, 3); both err on the heavy",
        &[LOW, LOW_FLAT],
        &[&[], SQUAT],
    ),
    (
        "Under a heap 5.37 gives a greater one for squat silos, which is not calculated: this errs on the light side",
        &[LOW_FLAT, LOW_HEADROOM],
        &[&[], SQUAT, LOW, &FLAT],
    ),
    ("its load (5.13) is for grain level with the brim", &[LOW_FLAT], &[LOW_HEADROOM]),
    ("Headroom g = 300 mm: z is counted from the brim, loads and h from", &[HEADROOM], &[&[]]),
    ("its load (5.13) is for grain that lies level", &[LOW_HEADROOM], &[LOW_FLAT]),
    (
        "equivalent surface (1.4.1), g below it; above the surface loads are 0. Filled higher, they are greater.",
        &[HEADROOM, LOW_HEADROOM],
        &[&[], &[("headroom", "0 mm")], &[("headroom", "")]],
    ),
    (
        "does not hold for corrugated walls",
        &[
            PRODUCTS[1].0,
            PRODUCTS[3].0,
            &[BY_NAME[0], BY_NAME[1], BY_NAME[3], ("product", "wheat"), ("friction", "0.30")],
        ],
        &[&[], PRODUCTS[2].0, PRODUCTS[4].0, PRODUCTS[5].0, PRODUCTS[6].0],
    ),
    (
        "Factor C0 is blank and taken as 1.55, equation 7.4 at an internal friction angle of 40 degrees. A soft product, up to 30 \
         degrees, needs factor = 1.35 written in; one over 40 degrees needs more (7.4).",
        &[&[("factor", "")], &[("factor", "0")], &[("factor", ""), LOW[0], LOW[1]]],
        &[&[], &[("factor", "1.55")], PRODUCTS[3].0],
    ),
    (
        "extra pressure at the transition of a mass-flow hopper (5.26)",
        &[&[]],
        &[&FLAT],
    ),
    (
        "the hopper is calculated as symmetric",
        &[&[("outlet eccentricity", "501 mm")]],
        &[
            &[("outlet eccentricity", "500 mm")],
            &[("outlet eccentricity", "501 mm"), FLAT[0], FLAT[1], FLAT[2]],
        ],
    ),
];

/// White space, line breaks, tags and the signs of low letters left out, so that a wrapped note reads as one.
fn plain(page: &str) -> String {
    let mut in_tag = false;
    let outside = page.chars().filter(|c| {
        in_tag = (in_tag || *c == '<') && *c != '>';
        !in_tag && *c != '>' && !c.is_whitespace() && !['_', '\u{200b}'].contains(c)
    });
    outside.collect()
}

#[test]
fn notes_stand_on_every_output_where_they_apply() {
    for (words, with, without) in NOTES {
        let expected = plain(words);
        for (silos, stands) in [(with, true), (without, false)] {
            for changes in silos {
                let pages = [
                    output(changes, Format::Table, Units::Whole),
                    output(changes, Format::Csv, Units::Whole),
                    output(changes, Format::CsvSemicolon, Units::Kilo),
                    output(changes, Format::Json, Units::Whole),
                    drawing(changes),
                ];
                for page in pages {
                    assert_eq!(plain(&page).contains(&expected), stands, "{words}: {page}");
                }
            }
        }
    }
}

#[test]
fn the_patch_acts_on_a_band_or_on_squares() {
    let circle = plain(&output(&[("diameter", "4999 mm")], Format::Table, Units::Whole));
    assert!(circle.contains(&plain("a band s = 999.8 mm high")), "{circle}");
    let sides =
        plain(&output(&[("diameter", "-"), ("sides", "6 x 4.5 m")], Format::Table, Units::Whole));
    assert!(sides.contains(&plain("two opposite squares of s = 900 mm")), "{sides}");
    for (height, is_lower) in [("1000 mm", false), ("999 mm", true)] {
        let text = text_with(&[("strakes", height), ("depths", "0 mm")]);
        let outcome = commands::loads("bin.silo", text.as_bytes(), Format::Table, Units::Whole);
        let page = plain(&String::from_utf8(outcome.output).expect("UTF-8"));
        assert_eq!(page.contains(&plain("The wall is lower than s.")), is_lower, "{page}");
    }
    const LEAVES: [Changes; 2] = [&[("headroom", "9 m")], &[("headroom", "9001 mm")]];
    let said = |changes| {
        let page = plain(&output(changes, Format::Table, Units::Whole));
        page.contains(&plain("The grain at the wall is lower than s."))
    };
    assert_eq!(LEAVES.map(said), [false, true]);
}

const LABELS: Changes = &[
    ("project", "Silo \"Nord\" & Söhne; <2>"),
    ("customer", "=1+2"),
    ("place", ""),
    ("author", "M. Dupont, \u{c9}tudes"),
    ("date", "2026-11-16"),
    ("revision", "B #2"),
    ("note", "to be bolted on site"),
];

#[test]
fn labels_and_program_stand_on_every_output() {
    stored("host/tests/golden/labels.txt", output(LABELS, Format::Table, Units::Kilo).as_bytes());
    stored("host/tests/golden/labels.csv", output(LABELS, Format::Csv, Units::Whole).as_bytes());
    let semicolon = output(LABELS, Format::CsvSemicolon, Units::Kilo);
    stored("host/tests/golden/labels-semicolon.csv", semicolon.as_bytes());
    stored("host/tests/golden/labels.json", output(LABELS, Format::Json, Units::Kilo).as_bytes());
    let drawing = drawing(LABELS);
    for words in
        ["&amp; Söhne; &lt;2&gt;", "=1+2", "M. Dupont", "2026-11-16", "silo 1.", "ENV 1991-4:1995"]
    {
        assert!(drawing.contains(words), "{words}: {drawing}");
    }
}

/// Cells of a line; a separator within quotes belongs to its cell.
fn cells(line: &str, separator: char) -> Vec<String> {
    let mut cells = vec![String::new()];
    let mut quoted = false;
    for c in line.chars() {
        match c {
            '"' => quoted = !quoted,
            c if c == separator && !quoted => cells.push(String::new()),
            c => cells.last_mut().expect("a cell").push(c),
        }
    }
    cells
}

/// The cell of a strake's height.
const HEIGHT: usize = 13;

/// Both kinds of separated values say the same, cell by cell, and in kPa the same digits.
#[test]
fn separated_values_agree() {
    let whole = output(LABELS, Format::Csv, Units::Whole);
    let semicolon = output(LABELS, Format::CsvSemicolon, Units::Whole);
    let kilo = output(LABELS, Format::CsvSemicolon, Units::Kilo);
    let mark = '\u{feff}';
    assert!(!whole.starts_with(mark) && semicolon.starts_with(mark) && kilo.starts_with(mark));
    for ((whole, semicolon), kilo) in whole
        .lines()
        .zip(semicolon.trim_start_matches(mark).lines())
        .zip(kilo.trim_start_matches(mark).lines())
    {
        let [whole, semicolon, kilo] = [cells(whole, ','), cells(semicolon, ';'), cells(kilo, ';')];
        assert_eq!([whole.len(), semicolon.len(), kilo.len()], [15; 3]);
        if whole[0] == "check" {
            continue;
        }
        let loads = ["depth", "hopper", "strake"].contains(&&*whole[0]);
        for (i, cell) in whole.iter().enumerate() {
            match loads {
                true => assert_eq!(*cell, semicolon[i]),
                false => assert_eq!(cell.replace('.', ","), semicolon[i].replace('.', ",")),
            }
            if loads && ![0, 1, 2, HEIGHT].contains(&i) && !cell.is_empty() {
                let digits = kilo[i].split_once(',').expect("a decimal comma");
                let number: u32 = format!("{}{}", digits.0, digits.1).parse().expect("digits");
                assert_eq!((number.to_string(), digits.1.len()), (cell.clone(), 3));
            }
        }
    }
}

/// Every way to say one hopper gives the same sheet.
#[test]
fn a_hopper_by_height_run_angle_or_outlet() {
    const WAYS: [Changes; 6] = [
        &[("hopper height", "2200 mm"), ("hopper run", "2200 mm")],
        &[("hopper height", "-"), ("hopper run", "2.2 m"), ("hopper angle", "45 deg")],
        &[("hopper height", "2.2 m"), ("hopper run", "-"), ("alpha", "45.000 degrees")],
        &[("hopper height", "2.2 m"), ("hopper run", "-"), ("outlet width", "60 cm")],
        &[("hopper height", "-"), ("hopper run", "-"), ("outlet width", "600 mm"), ("α", "45°")],
        &[
            ("hopper height", "-"),
            ("hopper run", "-"),
            ("outlet diameter", "600 mm"),
            ("α", "45 °"),
        ],
    ];
    let sheets = WAYS.map(|way| {
        let outcome = commands::sheet("tower.silo", text_with(way).as_bytes());
        assert_eq!((outcome.status, outcome.messages.as_str()), (0, ""), "{way:?}");
        outcome.output
    });
    assert!(sheets.iter().all(|sheet| *sheet == sheets[0]));
}

/// The two heights or runs beside an angle that no whole mm gives enclose it.
#[test]
fn the_nearest_two_are_on_both_sides() {
    for (angle, run) in [("60", "1700"), ("20.05", "1000"), ("89.9", "10"), ("44.999", "2499")] {
        let lines = [
            ("hopper height", "-"),
            ("hopper run", &*format!("{run} mm")),
            ("hopper angle", &*format!("{angle} deg")),
        ]
        .map(|(name, value)| (name, value.to_string()));
        let changes: Vec<(&str, &str)> =
            lines.iter().map(|(name, value)| (*name, &**value)).collect();
        let outcome = commands::sheet("tower.silo", text_with(&changes).as_bytes());
        assert_eq!(outcome.status, 2);
        let said = outcome.messages.split("hopper height = ").nth(1).expect(&outcome.messages);
        let numbers: Vec<f64> =
            said.split([' ', '(', ')']).filter_map(|word| word.parse().ok()).collect();
        let [low, below, high, above] = numbers[..4] else { panic!("{said}") };
        assert_eq!(low + 1.0, high);
        let angle: f64 = angle.parse().expect("an angle");
        assert!(below <= angle && angle <= above, "{said}");
    }
}

/// Whatever hopper is offered is accepted.
#[test]
fn offered_hoppers_are_accepted() {
    let mut offered = 0;
    for angle in ["15", "20", "20.1", "30", "45.1", "60", "75", "89", "89.99"] {
        for (name, length) in [
            ("hopper run", "2 m"),
            ("hopper run", "3 m"),
            ("hopper run", "1 mm"),
            ("hopper height", "2 m"),
            ("hopper height", "1 mm"),
            ("outlet width", "4998 mm"),
            ("outlet width", "2 mm"),
        ] {
            let other = if name == "hopper height" { "hopper run" } else { "hopper height" };
            let gone = [("hopper height", "-"), ("hopper run", "-"), (name, length)];
            let angle = format!("{angle} deg");
            let text = text_with(&[&gone[..], &[("hopper angle", &angle)]].concat());
            let outcome = commands::sheet("tower.silo", text.as_bytes());
            assert_eq!(outcome.status, 2);
            let words: Vec<&str> = outcome.messages.split_whitespace().collect();
            for pair in words.windows(3).filter(|pair| pair[1] == "mm" && pair[2].starts_with('('))
            {
                let size = format!("{} mm", pair[0]);
                let mended = text_with(&[&gone[..], &[(other, &size)]].concat());
                let outcome =
                    commands::loads("tower.silo", mended.as_bytes(), Format::Table, Units::Whole);
                let said = &outcome.messages;
                assert!(outcome.status == 0 || !said.contains("refused, 9"), "{mended}{said}");
                offered += 1;
            }
        }
    }
    assert!(offered > 20, "{offered}");
}

/// At the greatest loads each number of a table stands apart.
#[test]
fn columns_never_run_together() {
    let numbers = |page: &str| -> Vec<Vec<String>> {
        let tables = page.split("\nNotes\n").next().unwrap_or("");
        let is_row = |line: &&str| line.trim_start().starts_with(|c: char| c.is_ascii_digit());
        let rows = tables.lines().filter(is_row);
        rows.map(|line| line.split_whitespace().map(|cell| cell.replace('.', "")).collect())
            .collect()
    };
    let whole = numbers(&output(&HEAVIEST, Format::Table, Units::Whole));
    let kilo = numbers(&output(&HEAVIEST, Format::Table, Units::Kilo));
    assert_eq!(whole.len(), 25 + 5 + 24);
    assert!(whole[24][4].len() == 8, "{:?}", whole[24]);
    for (whole, kilo) in whole.iter().zip(&kilo) {
        let plain = |cell: &String| cell.parse::<u64>().expect("a number");
        assert_eq!(
            whole.iter().map(plain).collect::<Vec<u64>>(),
            kilo.iter().map(plain).collect::<Vec<u64>>()
        );
    }
}

/// Symbols and spellings of the same silo.
#[test]
fn names_in_greek_and_common_spellings() {
    let plain = commands::sheet("tower.silo", text_with(HEADROOM).as_bytes()).output;
    const SPELT: [(&str, &str); 27] = [
        ("weight", "γ"),
        ("weight", "gamma"),
        ("weight", "unit weight"),
        ("weight", "Density"),
        ("ratio", "Ks"),
        ("ratio", "K_s"),
        ("ratio", "ks"),
        ("friction", "\u{3bc}"),
        ("friction", "\u{b5}"),
        ("friction", "mu"),
        ("friction", "wall friction"),
        ("factor", "C0"),
        ("factor", "C₀"),
        ("factor", "Co"),
        ("factor", "C_o"),
        ("factor", "C_0"),
        ("filling eccentricity", "e_i"),
        ("filling eccentricity", "ei"),
        ("outlet eccentricity", "eo"),
        ("hopper height", "H"),
        ("hopper run", "r"),
        ("depths", "z"),
        ("headroom", "g"),
        ("headroom", "Headroom"),
        ("headroom", "head-room"),
        ("headroom", "freeboard"),
        ("headroom", "Ullage"),
    ];
    for (name, spelling) in SPELT {
        let text = text_with(HEADROOM).replace(&format!("{name} ="), &format!("{spelling} ="));
        let outcome = commands::sheet("tower.silo", text.as_bytes());
        assert_eq!((outcome.status, outcome.messages.as_str()), (0, ""), "{spelling}");
        assert_eq!(outcome.output, plain, "{spelling}");
    }
}

/// Every name of the French table 7.1, and corn, is a row of the catalogue.
#[test]
fn products_by_their_french_names() {
    const FRENCH: [(&str, &str); 14] = [
        ("barley", "orge"),
        ("cement", "ciment"),
        ("clinker", "Clinker"),
        ("dry sand", "sable sec"),
        ("flour", "farine"),
        ("fly ash", "cendre volante"),
        ("maize", "maïs"),
        ("maize", "Mais"),
        ("maize", "corn"),
        ("sugar", "sucre"),
        ("wheat", "blé"),
        ("wheat", "BLÉ"),
        ("wheat", "ble\u{301}"),
        ("coal", "charbon"),
    ];
    let sheet = |product: &str| {
        let changes = [&BY_NAME[..], &[("product", product), ("wall", "steel")]].concat();
        let outcome = commands::sheet("tower.silo", text_with(&changes).as_bytes());
        assert_eq!(outcome.status, 0, "{product}: {}", outcome.messages);
        outcome.output
    };
    for (english, french) in FRENCH {
        assert_eq!(sheet(english), sheet(french), "{french}");
    }
}
