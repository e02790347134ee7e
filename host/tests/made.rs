//! What the loads are made with, what an order needs and the checklist, on every output; and that tables keep to 80 columns.

mod any;
mod common;
mod wrapped;

use any::accepted;
use common::{only_doubts, sample, text_with, Random, FLAT, HEAVIEST, SAMPLES};
use silo::commands::{self, Format};
use silo::description::{Description, Section};
use silo::library::{Loads, P_W};
use silo::units::Units;
use wrapped::unwrapped;

type Changes = &'static [(&'static str, &'static str)];

fn output(file: &[u8], format: Format, units: Units) -> String {
    let outcome = commands::loads("bin.silo", file, format, units);
    assert!(outcome.status == 0 && only_doubts(&outcome.messages), "{}", outcome.messages);
    String::from_utf8(outcome.output).expect("UTF-8")
}

fn page(changes: &[(&str, &str)], format: Format) -> String {
    output(text_with(changes).as_bytes(), format, Units::Whole)
}

/// Ks 0.55 and mu 0.30 on a flat floor and on a hopper.
const WHEAT: [(&str, &str); 2] = [("ratio", "0.55"), ("friction", "0.30")];

/// Each load, its equation, Ks, mu, and the equation that gives it those.
const WALL: [[&str; 5]; 7] = [
    ["p_hf", "5.3", "0.6325", "0.27", "7.1"],
    ["p_wf", "5.2", "0.6325", "0.345", "7.3"],
    ["p_vf", "5.4", "0.495", "0.27", "7.2"],
    ["P_w", "5.7", "0.6325", "0.345", "7.3"],
    ["p_he", "5.21", "0.6325", "0.27", "7.1"],
    ["p_we", "5.20", "0.6325", "0.345", "7.3"],
    ["p_p", "5.24", "0.6325", "0.27", "7.1"],
];
const FLOOR: [[&str; 5]; 1] = [["floor", "5.13", "0.495", "0.27", "7.2"]];
const HOPPER: [[&str; 5]; 3] = [
    ["n3", "5.18", "0.6325", "0.27", "7.1"],
    ["P_n", "5.15 to 5.17", "0.495", "0.27", "7.2"],
    ["P_t", "5.19", "", "0.345", "7.3"],
];

fn made_with_on_csv(csv: &str, [load, equation, ratio, friction, by]: [&str; 5]) {
    assert!(csv.contains(&format!("\nsilo,{load} equation,ENV {equation},")), "{load}: {csv}");
    for (name, mean, value) in [("Ks", "0.55", ratio), ("mu", "0.30", friction)] {
        let row = csv.lines().find(|line| line.starts_with(&format!("silo,{load} {name},")));
        let Some(row) = row else {
            assert_eq!(value, "", "{load}");
            continue;
        };
        let cells: Vec<&str> = row.split(',').collect();
        assert_eq!(cells[2], value, "{load}");
        assert!(cells[3].ends_with(&format!(" x {mean} ({by})")), "{row}");
    }
}

#[test]
fn every_load_says_its_ratio_and_friction() {
    for (changes, bottom) in [(&FLAT[..], &FLOOR[..]), (&[], &HOPPER[..])] {
        let changes = [&WHEAT[..], changes].concat();
        let [csv, json, table] =
            [Format::Csv, Format::Json, Format::Table].map(|format| page(&changes, format));
        for load in WALL.iter().chain(bottom) {
            made_with_on_csv(&csv, *load);
            let [load, equation, ratio, friction, by] = *load;
            let line =
                json.lines().find(|line| line.contains(&format!("{{\"load\": \"{load}\", ")));
            let line = line.expect(load);
            assert!(line.contains(&format!("\"equation\": \"{equation}\"")), "{line}");
            assert!(line.contains(&format!("\"by\": \"{by}\"")), "{line}");
            assert!(line.contains(&format!("\"mu\": {friction}")), "{line}");
            assert_eq!(line.contains(&format!("\"Ks\": {ratio}")), !ratio.is_empty(), "{line}");
        }
        let column = |place: usize| WALL.map(|load| load[place]).join(" ");
        let heads = ["ENV", "Ks", "mu", "by"].into_iter().zip(1..);
        for (name, place) in heads {
            let head = format!(" {name} {} ", column(place));
            assert!(unwrapped(&table).contains(&head), "{head}: {table}");
        }
    }
}

#[test]
fn a_patch_says_its_ratio_and_friction() {
    let patch = |format| {
        let changes = [&WHEAT[..], &[("outlet eccentricity", "700 mm"), ("diameter", "4.2 m")]];
        let text = text_with(&changes.concat());
        let outcome =
            commands::patch("bin.silo", text.as_bytes(), (5000, 10), format, Units::Whole);
        unwrapped(&String::from_utf8(outcome.output).expect("UTF-8"))
    };
    let said = "made with Ks = 1.15 x 0.55 = 0.6325, mu = 0.9 x 0.30 = 0.27 (7.1), beta = about 1.66667 (5.25)";
    assert!(patch(Format::Table).contains(said), "{}", patch(Format::Table));
    let rows = "silo,p_p equation,ENV 5.24,0.2 beta p_he silo,p_p Ks,0.6325,1.15 x 0.55 (7.1) \
                silo,p_p mu,0.27,0.9 x 0.30 (7.1) silo,beta,1.66667,rounded from 5/3 ";
    assert!(patch(Format::Csv).contains(rows), "{}", patch(Format::Csv));
}

/// A text's or a sheet's product, and what the checklist's first line says of its friction.
const WHOSE: [(Changes, &str); 5] = [
    (&[], "[x] friction entered: the mean, mu 0.40: the text's own"),
    (
        &[WHEAT[0], WHEAT[1], ("factor", "1.30"), ("wall", "steel")],
        "[x] friction entered: the mean, mu 0.30: the text's own",
    ),
    (
        &[
            NAMED[0],
            NAMED[1],
            NAMED[2],
            ("friction", "-"),
            ("product", "wheat"),
            ("wall", "concrete"),
        ],
        "[x] friction entered: the mean, mu 0.40: table 7.1's for wheat on concrete",
    ),
    (
        &[NAMED[0], NAMED[1], NAMED[2], ("product", "wheat"), ("wall", "corrugated")],
        "[x] friction entered: the mean, mu 0.40: the text's own",
    ),
    (
        &[
            NAMED[0],
            ("ratio", "0.60"),
            NAMED[2],
            ("friction", "-"),
            ("product", "blé"),
            ("wall", "acier"),
        ],
        "[x] friction entered: the mean, mu 0.30: table 7.1's for wheat on steel",
    ),
];
const NAMED: [(&str, &str); 3] = [("weight", "-"), ("ratio", "-"), ("factor", "-")];

#[test]
fn the_checklist_says_whose_friction() {
    for (changes, said) in WHOSE {
        let table = page(changes, Format::Table);
        assert!(unwrapped(&table).contains(&format!("{said} [x] which")), "{said}: {table}");
    }
    let sheet = |changes: &[(&str, &str)]| {
        let bytes = commands::sheet("bin.silo", text_with(changes).as_bytes()).output;
        unwrapped(&output(&bytes, Format::Table, Units::Whole))
    };
    let own = "[ ] friction entered: the mean, mu 0.40: the sheet's, which does not say whose it is: compare it [x]";
    assert!(sheet(&[]).contains(own), "{}", sheet(&[]));
    let row = "[x] friction entered: the mean, mu 0.30: the sheet's, which table 7.1 has for wheat on steel [x]";
    assert!(sheet(&[&WHEAT[..], &[("factor", "1.30")]].concat()).contains(row));
}

#[test]
fn a_table_ends_with_the_checklist() {
    for file in ["wheat-tower", "barley-bin"] {
        let table = output(&sample(&format!("{file}.silo")), Format::Table, Units::Whole);
        let (_, list) = table.split_once("\nChecklist\n").expect("a checklist");
        assert_eq!(list.lines().filter(|line| line.starts_with("[x] ")).count(), 4, "{list}");
        let (list, program) = list.split_once("\n\n").expect("the program");
        assert!(list.contains("p_vf(V)") && program.starts_with("silo 1."), "{program}");
    }
}

/// The number that stands before its unit behind a name of the order.
fn order(table: &str, name: &str) -> f64 {
    let line = table.lines().find(|line| line.starts_with(&format!("{name} "))).expect(name);
    let number = line[name.len()..].split_whitespace().find_map(|word| word.parse().ok());
    number.expect(name)
}

/// Level slices of the hopper, m3.
fn hopper_by_slices(silo: &Description) -> f64 {
    const SLICES: u32 = 2000;
    let [height, run] = [silo.hopper_height, silo.hopper_run].map(f64::from);
    let slice = |i: u32| {
        let in_from_wall = 2.0 * run * (f64::from(i) + 0.5) / f64::from(SLICES);
        let area = match silo.section {
            Section::Circle(d) => {
                std::f64::consts::PI * (f64::from(d) - in_from_wall).powi(2) / 4.0
            }
            Section::Rectangle(a, b) => {
                (f64::from(a) - in_from_wall) * (f64::from(b) - in_from_wall)
            }
        };
        area * height / f64::from(SLICES)
    };
    (0..SLICES).map(slice).sum::<f64>() / 1e9
}

fn area_and_perimeter(silo: &Description) -> (f64, f64) {
    match silo.section {
        Section::Circle(d) => {
            let d = f64::from(d) / 1000.0;
            (std::f64::consts::PI * d * d / 4.0, std::f64::consts::PI * d)
        }
        Section::Rectangle(a, b) => {
            let [a, b] = [a, b].map(|side| f64::from(side) / 1000.0);
            (a * b, 2.0 * (a + b))
        }
    }
}

/// Volumes and the mass are at most the exact value, forces at least, each by less than a thousandth of its unit.
#[test]
fn capacity_and_totals() {
    let mut random = Random(3203);
    for _ in 0..300 {
        let silo = accepted(&mut random);
        let table = output(&silo.to_bytes(), Format::Table, Units::Whole);
        let (area, perimeter) = area_and_perimeter(&silo);
        let hopper = hopper_by_slices(&silo);
        let below = |name: &str, due: f64| {
            let under = due - order(&table, name);
            assert!((-1e-6 * due..0.001 + 1e-6 * due).contains(&under), "{name}: {due}, {silo:?}");
        };
        let height = |mm: u64| mm as f64 / 1000.0;
        let full = area * height(silo.grain_height()) + hopper;
        below("volume to the brim", area * height(silo.wall_height()) + hopper);
        below("volume to the grain's surface", full);
        below("mass by the weight", full * f64::from(silo.product.weight) / 9810.0);
        let loads = Loads::of(&silo.to_bytes(), silo.strakes.len()).expect("loads");
        let above = |name: &str, due: f64| {
            let over = order(&table, name) - due / 1000.0;
            assert!((-1e-12 * due..0.001001).contains(&over), "{name}: {due}, {silo:?}");
        };
        let foot = *loads.column(P_W).last().expect("the foot");
        above("P_w(V) times perimeter", f64::from(foot) * perimeter);
        let slenderness = silo.height() as f64 / f64::from(silo.section.shorter_side());
        let factor = (1.0 + 0.2 * (slenderness - 1.0)).clamp(1.0, 1.1);
        above("P_w(V) times perimeter and C_w", f64::from(foot) * perimeter * factor);
        match silo.is_flat() {
            true => above("total on the floor", f64::from(loads.floor()) * area),
            false => assert!(!table.contains("\ntotal on the floor")),
        }
    }
}

/// Sentences of the order, and silos with and without them.
const NOTES: [(&str, &[Changes], &[Changes]); 7] = [
    ("The weights of table 7.1 are upper limits for loads and not for volumes (note 3 to the table)", &[&[], &FLAT], &[]),
    ("which is less and leads to thinner plate", &[UNDER], &[&[], UNDER_STIFF, UNDER_CONCRETE, UNDER_SIDES]),
    ("the simplified rule's p_he (1 + 0.2 beta) (5.28)", &[UNDER_STIFF, UNDER_CONCRETE, UNDER_SIDES], &[&[], UNDER, SIDES]),
    ("p_he + p_p is heavy for hoop tension", &[&[], UNDER], &[SIDES]),
    ("with its height H and run r on all four sides", &[SIDES], &[&[], &FLAT]),
    ("Volumes have the hopper in them", &[&[], SIDES], &[&FLAT]),
    ("together they are more than the grain weighs", &[&FLAT], &[&[], SIDES]),
];
const UNDER: Changes = &[("diameter", "4999 mm")];
const UNDER_STIFF: Changes = &[("diameter", "4999 mm"), ("stiffeners", "yes")];
const UNDER_CONCRETE: Changes = &[("diameter", "4999 mm"), ("wall", "concrete")];
const SIDES: Changes = &[("diameter", "-"), ("sides", "5 x 6 m")];
const UNDER_SIDES: Changes = &[("diameter", "-"), ("sides", "4999 x 6000 mm")];

#[test]
fn notes_of_the_order_where_they_apply() {
    for (words, with, without) in NOTES {
        for (silos, stands) in [(with, true), (without, false)] {
            for changes in silos {
                for format in [Format::Table, Format::Csv, Format::Json] {
                    let page = unwrapped(&page(changes, format)).replace("\"\"", "\"");
                    assert_eq!(page.contains(words), stands, "{words}: {changes:?}");
                }
            }
        }
    }
}

/// Lines of a table wider than 80 characters, but for the file's name.
fn wide(page: &str) -> Vec<&str> {
    page.lines().skip(1).filter(|line| line.chars().count() > 80).collect()
}

const LONG: &str = "sixty characters are the most that a label of the order has";

#[test]
fn tables_keep_to_80_columns() {
    let note = format!("{LONG}, {LONG}, {LONG}");
    let labels = [("project", LONG), ("note", &*note)];
    let heaviest = text_with(&[&HEAVIEST[..], &labels].concat());
    let flat =
        text_with(&[&HEAVIEST[..], &FLAT, &[("friction", "0.10"), ("ratio", "0.20")]].concat());
    let ends = "200, 201, 202, 203, 204, 205, 206, 207, 208, 209, 210, 211, 212, 213, 214, 215, 216, 217, 218, 219 mm";
    let uneven = text_with(&[
        ("strakes", ends),
        ("depths", "0 mm"),
        ("headroom", "1999 mm"),
        ("filling eccentricity", "1249 mm"),
    ]);
    let mut files: Vec<Vec<u8>> = [heaviest, flat, uneven].map(String::into_bytes).to_vec();
    files.extend(SAMPLES.map(|name| sample(&format!("{name}.silo"))));
    let mut random = Random(3204);
    files.extend((0..200).map(|_| accepted(&mut random).to_bytes()));
    for file in files {
        for units in [Units::Whole, Units::Kilo] {
            let table = output(&file, Format::Table, units);
            assert_eq!(wide(&table), [""; 0]);
            let patch = commands::patch("bin.silo", &file, (199, 1), Format::Table, units);
            assert_eq!(wide(&String::from_utf8(patch.output).expect("UTF-8")), [""; 0]);
        }
    }
    let catalogue = commands::catalogue(Format::Table).output;
    assert_eq!(wide(&String::from_utf8(catalogue).expect("UTF-8")), [""; 0]);
}
