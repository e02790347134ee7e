//! Silos that are calculated but improbable: each doubt on both sides of its limit, where it is said, and that ordinary silos have none.

mod common;
mod silos;

use common::{sample, stored, text_with, Random, FLAT, SAMPLES};
use silo::commands::{self, Format, Outcome};
use silo::doubt::{self, Doubt};
use silo::library::{self, Loads, P_HE, P_HF, P_P, P_VF, P_W, P_WE, P_WF};
use silo::units::Units;
use silos::{any_silo, described};
use std::path::PathBuf;
use std::process::Command;

type Changes = &'static [(&'static str, &'static str)];

fn doubts(changes: &[(&str, &str)]) -> Vec<Doubt> {
    let text = text_with(changes);
    let (silo, origin) = described(&text);
    assert!(silo.is_accepted(), "{text}");
    doubt::doubts(&silo, &origin)
}

fn codes(changes: &[(&str, &str)]) -> Vec<&'static str> {
    doubts(changes).iter().map(|doubt| doubt.code).collect()
}

/// Lines that put table 7.1's wheat in place of the four numbers.
const WHEAT: [(&str, &str); 5] =
    [("weight", "-"), ("ratio", "-"), ("friction", "-"), ("factor", "-"), ("product", "wheat")];

/// A doubt, the line that changes, its value at the limit and beyond it, and other lines that both silos have.
type Case = (&'static str, &'static str, &'static str, &'static str, Changes);

const STEEL: Changes = &[("wall", "steel")];
const CORRUGATED: Changes = &[("wall", "corrugated")];
const SHORT: Changes = &[("strakes", "2 x 1 m"), ("depths", "2 m")];
const NARROW: Changes = &[FLAT[0], FLAT[1], FLAT[2], ("strakes", "5 x 1000 mm"), ("depths", "5 m")];

/// Of a silo that names no product.
const OF_SIZES: [Case; 26] = [
    ("headroom-high", "headroom", "2000 mm", "2001 mm", &[("strakes", "2400, 2 x 1800 mm")]),
    ("strake-without-load", "headroom", "1999 mm", "2000 mm", &[]),
    ("weight-low", "weight", "4000 N/m3", "3999 N/m3", &[]),
    ("ratio-low", "ratio", "0.40", "0.39", &[]),
    ("ratio-high", "ratio", "0.70", "0.71", &[]),
    ("friction-low", "friction", "0.20", "0.19", &[]),
    ("friction-high", "friction", "0.60", "0.61", &[]),
    ("friction-high", "friction", "0.60", "0.61", CORRUGATED),
    ("friction-corrugated-low", "friction", "0.30", "0.29", CORRUGATED),
    ("factor-low", "factor", "1.35", "1.34", &[]),
    ("narrow", "diameter", "1000 mm", "999 mm", NARROW),
    ("slender", "diameter", "1917 mm", "1916 mm", &[("hopper run", "900 mm")]),
    ("low", "diameter", "25 m", "25001 mm", SHORT_FLAT),
    ("strakes-low", "strakes", "20 x 500 mm", "20 x 499 mm", &[]),
    ("strakes-unequal", "strakes", "300, 4 x 2100 mm", "300, 4 x 2101 mm", &[]),
    ("first-strake-high", "strakes", "2 x 1400, 7 x 1000 mm", "2 x 1401, 7 x 1000 mm", &[]),
    ("first-strake-high", "strakes", "1400, 1000, 5 x 1400 mm", "1401, 1000, 5 x 1400 mm", &[]),
    ("one-strake", "strakes", "2 x 1500 mm", "3000 mm", ONE_STRAKE),
    ("hopper-high", "hopper height", "4000 mm", "4001 mm", SHORT),
    ("hopper-steep", "hopper height", "8000 mm", "8001 mm", &[]),
    ("hopper-flat", "hopper height", "1400 mm", "1399 mm", &[]),
    ("hopper-small", "hopper height", "100 mm", "99 mm", &[("hopper run", "100 mm")]),
    ("outlet-small", "hopper run", "2450 mm", "2451 mm", &[("hopper height", "2500 mm")]),
    ("filling-eccentricity-small", "filling eccentricity", "10 mm", "9 mm", &[]),
    ("outlet-eccentricity-small", "outlet eccentricity", "10 mm", "9 mm", &[]),
    ("depths-end-early", "depths", "5000 mm", "4999 mm", &[]),
];
const ONE_STRAKE: Changes = &[("depths", "1500 mm")];
const SHORT_FLAT: Changes =
    &[FLAT[0], FLAT[1], FLAT[2], ("strakes", "2 x 1250 mm"), ("depths", "2500 mm")];

/// Of wheat, for which table 7.1 has 9000 N/m³, 0.55, 0.30 on steel, 0.40 on concrete and 1.30.
const OF_WHEAT: [Case; 11] = [
    ("weight-light", "weight", "9.0 kN/m3", "8999 N/m3", STEEL),
    ("ratio-light-on-wall", "ratio", "0.55", "0.54", STEEL),
    ("ratio-light-on-bottom", "ratio", "0.55", "0.56", STEEL),
    ("factor-light", "factor", "1.30", "1.29", STEEL),
    ("friction-light-on-wall", "friction", "0.30", "0.31", STEEL),
    ("friction-light-drag", "friction", "0.30", "0.29", STEEL),
    ("friction-light-on-wall", "friction", "0.40", "0.41", &[("wall", "concrete")]),
    ("friction-light-drag", "friction", "0.40", "0.39", &[("wall", "concrete")]),
    ("friction-corrugated", "friction", "0.31", "0.30", CORRUGATED),
    ("friction-light-on-unnamed-wall", "friction", "0.40", "0.41", &[]),
    ("friction-light-drag-on-unnamed-wall", "friction", "0.30", "0.29", &[]),
];

/// Equal to a limit there is no doubt, beyond it that one alone.
#[test]
fn each_doubt_on_both_sides_of_its_limit() {
    let of_sizes = OF_SIZES.iter().map(|case| (&[][..], case));
    let of_wheat = OF_WHEAT.iter().map(|case| (&WHEAT[..], case));
    let mut words = String::new();
    for (product, (code, name, at, beyond, others)) in of_sizes.chain(of_wheat) {
        let with = |value| [product, others, &[(*name, value)]].concat();
        assert_eq!(codes(&with(at)), Vec::<&str>::new(), "{code}: {name} = {at}");
        let found = doubts(&with(beyond));
        assert_eq!(codes(&with(beyond)), [*code], "{name} = {beyond}");
        words += &format!("{} ({}): {}\n", found[0].code, found[0].name.word(), found[0].words);
    }
    let is_tried = |code: &&str| words.lines().any(|line| line.starts_with(&format!("{code} (")));
    assert_eq!(doubt::codes().find(|code| !is_tried(code)), None);
    stored("host/tests/golden/doubts.txt", words.as_bytes());
}

/// A line in place of wheat's own number, a doubt that it raises, and which numbers of a depth are lower for it.
const LIGHTER: [(&str, &str, &str, &[usize]); 6] = [
    ("weight-light", "weight", "8.0 kN/m3", &[P_HF, P_WF, P_VF, P_W, P_HE, P_WE, P_P]),
    ("ratio-light-on-wall", "ratio", "0.45", &[P_HF, P_WF, P_W, P_HE, P_WE, P_P]),
    ("ratio-light-on-bottom", "ratio", "0.65", &[P_VF]),
    ("friction-light-on-wall", "friction", "0.40", &[P_HF, P_VF, P_HE, P_P]),
    ("friction-light-drag", "friction", "0.20", &[P_WF, P_W, P_WE]),
    ("factor-light", "factor", "1.20", &[P_HE, P_P]),
];

#[test]
fn what_is_said_to_be_lower_is_lower() {
    let foot = |changes: &[(&str, &str)]| {
        let text = text_with(&[&WHEAT, STEEL, &[("depths", "10 m")], changes].concat());
        let silo = described(&text).0;
        let loads = Loads::of(&silo.to_bytes(), silo.strakes.len()).expect("an accepted silo");
        let row = loads.rows().next().expect("a depth").to_vec();
        (row, loads.hopper().map(|(_, normal, _)| normal).collect::<Vec<u32>>())
    };
    let (table, hopper) = foot(&[]);
    for (code, name, value, lower) in LIGHTER {
        assert_eq!(codes(&[&WHEAT[..], STEEL, &[(name, value)]].concat()), [code]);
        let (own, own_hopper) = foot(&[(name, value)]);
        let found: Vec<usize> = (P_HF..=P_P).filter(|load| own[*load] < table[*load]).collect();
        assert_eq!(found, lower, "{code}");
        let is_lower = own_hopper.iter().zip(&hopper).all(|(own, table)| own < table);
        let said = ["weight-light", "friction-light-on-wall"].contains(&code);
        assert!(is_lower || !said, "{code}: {own_hopper:?}");
    }
}

/// A row's numbers without its name, and with a friction of one's own, as the sheet of a corrugated bin has them.
#[test]
fn a_row_of_table_7_1_is_not_doubted() {
    let wheat = [("ratio", "0.55"), ("factor", "1.30")];
    for friction in ["0.30", "0.40", "0.45"] {
        assert_eq!(codes(&[&wheat[..], &[("friction", friction)]].concat()), Vec::<&str>::new());
    }
    assert_eq!(codes(&[("ratio", "0.50"), ("factor", "1.30")]), ["factor-low"]);
    assert_eq!(codes(&[("factor", "")]), Vec::<&str>::new());
}

#[test]
fn samples_are_not_doubted() {
    for name in SAMPLES.into_iter().chain(["long-store"]) {
        let text = String::from_utf8(sample(&format!("{name}.silo"))).expect(name);
        let (silo, origin) = described(&text);
        assert_eq!(doubt::doubts(&silo, &origin), [], "{name}");
    }
}

/// The strakes that are said to have no load are those that have 0 Pa.
#[test]
fn strakes_without_load_have_0_pa() {
    let mut random = Random(15_400);
    let mut seen = 0;
    for _ in 0..2000 {
        let (silo, origin) = described(&any_silo(&mut random));
        let Ok(loads) = Loads::of(&silo.to_bytes(), silo.strakes.len()) else { continue };
        let due = match loads.strakes().iter().filter(|load| **load == 0).count() {
            0 => None,
            1 => Some("strake 1 has 0 Pa".to_string()),
            count => Some(format!("each of strakes 1 to {count} has 0 Pa")),
        };
        let doubts = doubt::doubts(&silo, &origin);
        let said = doubts.iter().find(|doubt| doubt.code == "strake-without-load");
        let said = said.and_then(|doubt| doubt.words.split(": ").next().map(str::to_string));
        assert_eq!(said, due, "{silo:?}");
        seen += usize::from(due.is_some());
    }
    assert!(seen > 50, "{seen}");
}

/// Grain of 15.4 m taken for headroom, and a weight under table 7.1's.
const DOUBTFUL: [(&str, &str); 9] = [
    WHEAT[1],
    WHEAT[2],
    WHEAT[3],
    WHEAT[4],
    ("weight", "7652 N/m3"),
    ("wall", "steel"),
    ("strakes", "8 x 2 m"),
    ("depths", "strake edges"),
    ("headroom", "15.4 m"),
];

/// What each command writes of that silo, and how its notes begin, spaces and lines as one space.
fn outcomes(notes: &str) -> Vec<(Outcome, String)> {
    let text = text_with(&DOUBTFUL);
    let (bytes, units) = (text.as_bytes(), Units::Whole);
    let loads = |format| commands::loads("tower.silo", bytes, format, units);
    let patch = |format| commands::patch("tower.silo", bytes, (8000, 10), format, units);
    let drawn = ">Doubt: headroom = 15400 mm leaves 600 mm of grain at a wall of 16000 mm";
    let table = format!("Notes - {notes}");
    let json = format!("\"notes\": [ \"{}\"", notes.replace(" - ", "\", \""));
    let [comma, semicolon] = [',', ';'].map(|separator| {
        format!("note{separator}1{separator}\"{}\"", notes.split(" - ").next().expect("a note"))
    });
    vec![
        (loads(Format::Table), table.clone()),
        (loads(Format::Csv), comma.clone()),
        (loads(Format::CsvSemicolon), semicolon.clone()),
        (loads(Format::Json), json),
        (patch(Format::Table), table),
        (patch(Format::Csv), comma),
        (patch(Format::CsvSemicolon), semicolon),
        (commands::draw("tower.silo", bytes, units), drawn.to_string()),
        (commands::draw_patch("tower.silo", bytes, 8000, units), drawn.to_string()),
        (commands::page("tower.silo", bytes), String::new()),
        (commands::sheet("tower.silo", bytes), String::new()),
    ]
}

#[test]
fn every_command_says_doubts_and_notes_begin_with_them() {
    let found = doubts(&DOUBTFUL);
    let shown: Vec<String> = found.iter().map(Doubt::shown).collect();
    assert_eq!(
        codes(&DOUBTFUL),
        ["headroom-high", "strake-without-load", "weight-light"],
        "{shown:?}"
    );
    let lines = [11, 11, 2].iter().zip(&shown);
    let said: String = lines.map(|(line, doubt)| format!("tower.silo:{line}: {doubt}\n")).collect();
    for (outcome, notes) in outcomes(&shown.join(" - ")) {
        assert_eq!((outcome.status, &*outcome.messages), (0, &*said), "{notes}");
        let page = String::from_utf8_lossy(&outcome.output).into_owned();
        let plain = page.split_whitespace().collect::<Vec<&str>>().join(" ");
        assert!(plain.contains(&notes), "{notes}: {page}");
        assert_eq!(outcome.strict().status, 3);
    }
}

/// Of many doubts a drawing has the lines, and nothing on depths that it does not show.
#[test]
fn a_drawing_has_room_for_some_doubts() {
    let few = doubts(&[("headroom", "4 m"), ("depths", "0 mm")]);
    let many = doubts(&[
        ("headroom", "4 m"),
        ("depths", "0 mm"),
        ("ratio", "0.20"),
        ("friction", "0.90"),
        ("factor", "1.00"),
    ]);
    let drawn = |doubts: &[Doubt]| {
        let notes = doubts.iter().map(Doubt::shown).chain(["Another note.".to_string()]);
        doubt::drawn(doubts, notes.collect())
    };
    assert_eq!(few.len(), 3);
    assert_eq!(drawn(&few), [few[0].shown(), few[1].shown(), "Another note.".to_string()]);
    let lines = "Doubt: improbable are headroom, ratio, friction, factor; silo loads says why.";
    assert_eq!(drawn(&many), [lines, "Another note."]);
}

/// The page is the library's, and a sheet has no product's name: its doubts are those of its numbers.
#[test]
fn pages_and_sheets_stay_as_they_are() {
    let text = text_with(&DOUBTFUL);
    let sheet = described(&text).0.to_bytes();
    let page = commands::page("tower.silo", text.as_bytes());
    assert_eq!(Ok(page.output), library::page(&sheet));
    assert_eq!(commands::sheet("tower.silo", text.as_bytes()).output, sheet);
    let explained = commands::explain("tower.sheet", &sheet);
    assert_eq!((explained.status, explained.messages.lines().count()), (0, 3));
    let factor = "tower.sheet: Doubt: factor = 1.30: 7.4 gives at least 1.35; ";
    assert!(explained.messages.contains(factor), "{}", explained.messages);
}

#[test]
fn doubts_are_data_in_json() {
    let text = text_with(&DOUBTFUL);
    let loads = commands::loads("tower.silo", text.as_bytes(), Format::Json, Units::Whole);
    stored("host/tests/golden/doubts.json", &loads.output);
}

/// A silo that is refused or cannot be read has no doubts, whatever else it has.
#[test]
fn a_refused_silo_has_no_doubts() {
    for (friction, status) in [("0.05", 1), ("smooth", 2)] {
        let text = text_with(&[("friction", friction), ("headroom", "9 m")]);
        let outcome = commands::loads("bin.silo", text.as_bytes(), Format::Table, Units::Whole);
        assert!(!outcome.doubtful && !outcome.messages.contains("Doubt"), "{}", outcome.messages);
        assert_eq!(outcome.strict().status, status);
    }
    let refused = described(&text_with(&[("friction", ""), ("headroom", "9 m")])).0.to_bytes();
    let explained = commands::explain("bin.sheet", &refused);
    assert_eq!((explained.status, explained.messages.as_str()), (0, ""));
}

/// With --strict what is written is written all the same, and the status is 3 where there are doubts.
#[test]
fn a_strict_run_has_its_own_status() {
    let folder = PathBuf::from(env!("CARGO_TARGET_TMPDIR")).join("strict");
    std::fs::create_dir_all(&folder).expect("a folder");
    for (name, text) in [("tower", text_with(&DOUBTFUL)), ("bin", text_with(&[]))] {
        std::fs::write(folder.join(format!("{name}.silo")), text).expect("a text");
    }
    let run = |arguments: &[&str]| {
        let mut command = Command::new(env!("CARGO_BIN_EXE_silo"));
        let output = command.current_dir(&folder).args(arguments).output();
        let output = output.expect("the program runs");
        (output.status.code(), output.stdout)
    };
    let (_, table) = run(&["loads", "tower.silo"]);
    assert_eq!(run(&["loads", "tower.silo"]).0, Some(0));
    assert_eq!(run(&["loads", "tower.silo", "--strict"]), (Some(3), table.clone()));
    let _ = std::fs::remove_file(folder.join("tower.txt"));
    assert_eq!(run(&["loads", "tower.silo", "--strict", "-o", "tower.txt"]), (Some(3), Vec::new()));
    assert_eq!(std::fs::read(folder.join("tower.txt")).expect("a table"), table);
    assert_eq!(run(&["loads", "bin.silo", "--strict"]).0, Some(0));
    assert_eq!(run(&["catalogue", "--strict"]).0, Some(2));
}

/// Silos, and the weight that a measured mean needs; none where the weight is table 7.1's.
const WEIGHTS: [(Changes, Option<&str>); 5] = [
    (
        &[("weight", "7000 N/m3")],
        Some("if 7000 N/m3 is a measured mean, it needs at least 8050 N/m3"),
    ),
    (
        &[("weight", "7001 N/m3")],
        Some("if 7001 N/m3 is a measured mean, it needs at least 8052 N/m3"),
    ),
    (&[("ratio", "0.55"), ("friction", "0.30"), ("factor", "1.30")], None),
    (
        &[WHEAT[1], WHEAT[2], WHEAT[3], WHEAT[4], STEEL[0], ("weight", "9500 N/m3")],
        Some("if 9500 N/m3 is a measured mean, it needs at least 10925 N/m3"),
    ),
    (&[WHEAT[1], WHEAT[2], WHEAT[3], WHEAT[4], STEEL[0], ("weight", "9 kN/m3")], None),
];

#[test]
fn an_own_weight_has_a_note_on_every_output() {
    for (changes, words) in WEIGHTS {
        let text = text_with(changes);
        let sheet = described(&text).0.to_bytes();
        let said = |outcome: Outcome| {
            let page = String::from_utf8(outcome.output).expect("UTF-8");
            let page = page.replace("</text>", " ").replace('\u{a0}', " ");
            let words = page.split_whitespace().collect::<Vec<&str>>().join(" ");
            words.contains("is a measured mean, it needs at least")
        };
        for bytes in [text.as_bytes(), &sheet] {
            let loads = |format| commands::loads("bin.silo", bytes, format, Units::Whole);
            let table = String::from_utf8(loads(Format::Table).output).expect("UTF-8");
            let table = table.split_whitespace().collect::<Vec<&str>>().join(" ");
            let found = words.is_some_and(|words| table.contains(words));
            assert_eq!(found, words.is_some(), "{table}");
            let patch = commands::patch("bin.silo", bytes, (0, 10), Format::Csv, Units::Whole);
            let draw = commands::draw("bin.silo", bytes, Units::Whole);
            for outcome in [loads(Format::Csv), loads(Format::Json), patch, draw] {
                assert_eq!(said(outcome), words.is_some(), "{changes:?}");
            }
        }
    }
}
