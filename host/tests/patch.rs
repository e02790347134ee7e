//! The patch round a shell: its numbers beside the load list and the cosine, what its outputs say, and where it is refused. On a concrete or
//! stiffened circle it acts on two opposite squares.

mod common;
mod silos;

use common::{only_doubts, stored, text_with, Random, FLAT};
use silo::commands::{self, Format, Outcome};
use silo::description::{Description, Section};
use silo::files::Kind;
use silo::library::{self, Loads, Refusal, ShellPatch, P_P, SHELL_REPLY};
use silo::text;
use silo::units::Units;
use silos::any_silo;

type Changes = &'static [(&'static str, &'static str)];

const RECTANGLE: [(&str, &str); 2] = [("diameter", "-"), ("sides", "6 x 5 m")];
const LONG: [(&str, &str); 2] = [("diameter", "-"), ("sides", "16 x 5 m")];

fn described(text: &str) -> Description {
    text::read(text).unwrap_or_else(|errors| panic!("{text}{errors:?}")).description
}

/// p_p at a depth, as the answer list has it; nothing for a silo that is refused.
fn p_p(silo: &Description, depth: u32) -> Option<u32> {
    let silo = Description { depths: vec![depth], ..silo.clone() };
    let loads = Loads::of(&silo.to_bytes(), silo.strakes.len()).ok()?;
    loads.column(P_P).first().copied()
}

/// Any accepted silo of those in `silos`, all of them circles, with a depth and its p_p.
fn any_patch(random: &mut Random) -> (Description, u32, u32) {
    loop {
        let silo = described(&any_silo(random));
        let wall = silo.wall_height() as usize;
        let depth = [0, wall, random.below(wall + 1), random.below(wall + 1)];
        let depth = random.of(&depth) as u32;
        if let Some(p_p) = p_p(&silo, depth) {
            return (silo, depth, p_p);
        }
    }
}

#[test]
fn pressures_follow_the_cosine() {
    let mut random = Random(511);
    for _ in 0..1000 {
        let (silo, depth, p_p) = any_patch(&mut random);
        let patch = ShellPatch::of(&silo.to_bytes(), depth).expect("a circle");
        let pressures = patch.pressures();
        assert_eq!((pressures.len(), patch.pressure()), (360, p_p), "{depth}: {silo:?}");
        let exact = [(0, p_p), (60, p_p.div_ceil(2)), (90, 0), (270, 0)];
        assert!(exact.iter().all(|(degree, due)| pressures[*degree] == *due as i32));
        for (degree, pressure) in pressures.iter().enumerate() {
            let due = f64::from(p_p) * (degree as f64).to_radians().cos();
            let over = f64::from(*pressure).abs() - due.abs();
            assert!((-1e-6..1.01).contains(&over), "{degree}: {pressure} for {due}");
            assert!(*pressure == 0 || (*pressure > 0) == (due > 0.0), "{degree}: {pressure}");
            assert_eq!(*pressure, pressures[(360 - degree) % 360]);
            assert_eq!(*pressure, -pressures[(180 + degree) % 360]);
        }
    }
}

/// 5.12 with s = 0.2 d_c and 355/113 for pi, rounded up once.
#[test]
fn the_force_is_that_of_the_whole_pressure() {
    let mut random = Random(512);
    for _ in 0..1000 {
        let (silo, depth, p_p) = any_patch(&mut random);
        let patch = ShellPatch::of(&silo.to_bytes(), depth).expect("a circle");
        let d = u128::from(silo.section.shorter_side());
        let due = (355 * d * d * u128::from(p_p)).div_ceil(2 * 113 * 5 * 1_000_000);
        assert_eq!(u128::from(patch.force()), due, "{depth}: {silo:?}");
    }
}

/// Whichever depths the sheet lists, and whether the given one is among them.
#[test]
fn listed_depths_do_not_matter() {
    let numbers = |depths: &str| {
        let sheet = described(&text_with(&[("depths", depths)])).to_bytes();
        let mut reply = [0; SHELL_REPLY];
        assert_eq!(library::fill_shell_patch(&sheet, 5000, &mut reply), Ok(()));
        reply
    };
    assert_eq!(numbers("0, 5000 mm"), numbers("every 100 mm"));
    assert_eq!(numbers("0, 5000 mm"), numbers("9999 mm"));
}

fn asked(changes: Changes, depth: u32, step: usize, format: Format, units: Units) -> Outcome {
    let text = text_with(changes);
    commands::patch("bin.silo", text.as_bytes(), (depth, step), format, units)
}

fn page(changes: Changes, depth: u32, step: usize, format: Format, units: Units) -> String {
    let outcome = asked(changes, depth, step, format, units);
    assert!(outcome.status == 0 && only_doubts(&outcome.messages), "{changes:?}");
    String::from_utf8(outcome.output).expect("UTF-8")
}

/// Each degree that is asked for with its pressure, once and in order.
#[test]
fn tables_list_the_degrees_that_are_asked_for() {
    let sheet = described(&text_with(&[])).to_bytes();
    let patch = ShellPatch::of(&sheet, 5000).expect("a circle");
    for (units, digits) in [(Units::Whole, 0), (Units::Kilo, 3)] {
        for step in [1, 10] {
            let due: Vec<(usize, i32)> =
                patch.pressures().iter().copied().enumerate().step_by(step).collect();
            let number = |written: &str| {
                let places = written.split_once(['.', ',']).map_or(0, |(_, places)| places.len());
                assert_eq!(places, digits, "{written}");
                written.replace(['.', ','], "").parse::<i32>().expect(written)
            };
            let table = page(&[], 5000, step, Format::Table, units);
            let rows = table.lines().filter_map(|line| {
                let cells: Vec<&str> = line.split_whitespace().collect();
                let [degree, pressure] = cells[..] else { return None };
                degree.parse().ok().map(|degree: usize| (degree, number(pressure)))
            });
            assert_eq!(rows.collect::<Vec<(usize, i32)>>(), due);
            for (format, separator) in [(Format::Csv, ','), (Format::CsvSemicolon, ';')] {
                let csv = page(&[], 5000, step, format, units);
                let cells = csv.lines().map(|line| line.splitn(4, separator).collect::<Vec<_>>());
                let rows = cells.clone().filter(|cells| cells[0] == "degree");
                let rows =
                    rows.map(|cells| (cells[1].parse().expect("a degree"), number(cells[2])));
                assert_eq!(rows.collect::<Vec<(usize, i32)>>(), due);
                let forces: Vec<i32> = cells
                    .filter(|cells| cells[0] == "force")
                    .map(|cells| number(cells[3]))
                    .collect();
                assert_eq!(forces, [patch.force() as i32]);
            }
        }
    }
}

/// Changes, a depth, and words that a table has and others that it has not.
type Words = (Changes, u32, &'static [&'static str], &'static [&'static str]);

const HEADROOM: (&str, &str) = ("headroom", "700 mm");

const WORDS: [Words; 8] = [
    (
        &[],
        5000,
        &[
            "Patch round the shell, 5000 mm below the brim\n",
            "\np_p 4928 Pa at 0 degrees, on discharge (5.24)\n",
            "\ns 1000 mm, its height, from 4500 to 5500 mm (5.10)\n",
            "\nF_p 38705 N, its force, towards 0 degrees (5.12)\n",
            "text it acts on two opposite squares with sides of s (5.2.1.1, 4)",
            "The patch is added to p_he.",
        ],
        &["The band ends", "Squat", "grain's surface", "P_w", "Hopper: "],
    ),
    (&[], 0, &["from 0 to 500 mm", "The band ends at the brim; F_p is"], &["foot"]),
    (&[], 499, &["from 0 to 999 mm", "The band ends at the brim; "], &["foot"]),
    (&[], 500, &["from 0 to 1000 mm"], &["The band ends"]),
    (&[], 10_000, &["from 9500 to 10000 mm", "The band ends at the wall's foot; "], &["the brim;"]),
    (
        &[("diameter", "4999 mm"), HEADROOM],
        5000,
        &[
            "5000 mm below the brim, 4300 mm below the grain's surface\n",
            "s 999.8 mm, its height, from 4500.1 to 5499.9 mm (5.10)",
            "Headroom g = 700 mm: ",
        ],
        &["the grain begins"],
    ),
    (&[HEADROOM], 700, &["700 mm below the brim; the grain begins at 700 mm\n", "\np_p 0 Pa"], &[]),
    (
        &[("strakes", "200 mm"), ("factor", ""), ("depths", "0"), FLAT[0], FLAT[1], FLAT[2]],
        100,
        &[
            "The band ends at the brim and at the wall's foot; ",
            "Squat silo, ",
            "Factor C0 is blank",
        ],
        &[],
    ),
];

#[test]
fn a_table_says_where_the_patch_acts() {
    for (changes, depth, words, others) in WORDS {
        let table = page(changes, depth, 10, Format::Table, Units::Whole);
        for words in words {
            assert!(table.contains(words), "{words}: {table}");
        }
        for words in others {
            assert!(!table.contains(words), "{words}: {table}");
        }
    }
}

/// Refusals of a patch: the number, what is wrong, the lines that differ from an accepted silo, and the depth in mm.
const REFUSED: [(u32, &str, Changes, u32); 13] = [
    (19, "a rectangle", &RECTANGLE, 5000),
    (20, "a rectangle that is too long", &LONG, 5000),
    (
        20,
        "the sides before friction and the given depth",
        &[LONG[0], LONG[1], ("friction", "")],
        10_001,
    ),
    (11, "below the wall's foot", &[], 10_001),
    (11, "far below the wall's foot", &[], u32::MAX),
    (11, "a listed depth, and the given one is fine", &[("depths", "0, 10001 mm")], 5000),
    (11, "a listed depth and the given one", &[("depths", "5000, 4000 mm")], 10_001),
    (11, "the given depth before the headroom", &[("headroom", "10 m")], 10_001),
    (11, "the given depth before the rectangle", &RECTANGLE, 10_001),
    (17, "the headroom before the rectangle", &[RECTANGLE[0], RECTANGLE[1], ("g", "10 m")], 0),
    (12, "too slender", &[("diameter", "1 m"), FLAT[0], FLAT[1], FLAT[2]], 0),
    (7, "friction before all that", &[RECTANGLE[0], RECTANGLE[1], ("friction", "")], 10_001),
    (10, "strakes by which the depth is measured", &[("strakes", "5 x 2 mm")], 5000),
];

#[test]
fn every_refusal_of_a_patch() {
    let mut said = String::new();
    for (number, title, changes, depth) in REFUSED {
        let sheet = described(&text_with(changes)).to_bytes();
        for (file, bytes) in [("bin.silo", text_with(changes).into_bytes()), ("bin.sheet", sheet)] {
            let refused = commands::patch(file, &bytes, (depth, 10), Format::Csv, Units::Whole);
            assert_eq!((refused.status, refused.output.len()), (1, 0), "{title}");
            let start = format!("{file}: refused, {number}: ");
            assert!(refused.messages.starts_with(&start), "{title}: {}", refused.messages);
            let drawn = commands::draw_patch(file, &bytes, depth, Units::Whole);
            assert_eq!((drawn.status, drawn.output.len()), (1, 0), "{title}");
            assert_eq!(drawn.messages, refused.messages);
            said += &format!("== {number}: {title}, --depth {depth} mm\n{}\n", refused.messages);
        }
    }
    stored("host/tests/golden/patches.txt", said.as_bytes());
}

/// After a refusal the list is as it was, and 14 comes last.
#[test]
fn a_list_of_another_length() {
    let accepted = described(&text_with(&[])).to_bytes();
    let [rectangle, long] =
        [RECTANGLE, LONG].map(|changes| described(&text_with(&changes)).to_bytes());
    for length in [0, 1, 360, 362, 1000] {
        let mut lent = vec![7; length];
        let mut ask = |sheet: &[u8], depth| library::fill_shell_patch(sheet, depth, &mut lent);
        assert_eq!(ask(&accepted, 5000), Err(Refusal::LIST_LENGTH));
        assert_eq!(ask(&accepted, 10_001), Err(Refusal::DEPTH));
        assert_eq!(ask(&rectangle, 5000), Err(Refusal::RECTANGLE));
        assert_eq!(ask(&long, 10_001), Err(Refusal::UNEQUAL_SIDES));
        assert_eq!(ask(&[], 0), Err(Refusal::CUT_SHORT));
        assert!(lent.iter().all(|number| *number == 7));
    }
}

/// The load list and the patch agree on what they accept, but for the given depth and the rectangle.
#[test]
fn a_patch_is_refused_as_its_loads_are() {
    let mut random = Random(19);
    let mut refused = 0;
    for _ in 0..1000 {
        let circle = described(&any_silo(&mut random));
        let side = circle.section.shorter_side();
        let rectangle = Description { section: Section::Rectangle(side, side), ..circle.clone() };
        let loads = Loads::of(&circle.to_bytes(), circle.strakes.len()).map(|_| ());
        let patch = |silo: &Description| ShellPatch::of(&silo.to_bytes(), 0).map(|_| ());
        assert_eq!(patch(&circle), loads);
        assert_eq!(patch(&rectangle), loads.and(Err(Refusal::RECTANGLE)));
        refused += u32::from(loads.is_err());
    }
    assert!((100..900).contains(&refused), "{refused}");
}

/// The numbers of a field in JSON, each up to the next comma, bracket or line.
fn fields<'a>(json: &'a str, name: &str) -> Vec<&'a str> {
    let name = format!("\"{name}\": ");
    let after = json.split(&name).skip(1);
    after.filter_map(|rest| rest.split([',', '}', '\n']).next()).collect()
}

/// The numbers of the table, and as many degrees.
#[test]
fn json_has_the_numbers_of_the_patch() {
    let patch = ShellPatch::of(&described(&text_with(&[])).to_bytes(), 5000).expect("a circle");
    for step in [1, 10] {
        let json = page(&[], 5000, step, Format::Json, Units::Whole);
        let number = |written: &str| written.parse::<i32>().expect("a number");
        let listed: Vec<i32> = fields(&json, "p_ps").into_iter().skip(1).map(number).collect();
        let due: Vec<i32> = patch.pressures().iter().copied().step_by(step).collect();
        assert_eq!(listed, due);
        let degrees: Vec<i32> = fields(&json, "degree").into_iter().skip(1).map(number).collect();
        assert_eq!(degrees, (0..360).step_by(step).collect::<Vec<i32>>());
        let last = |name| fields(&json, name).last().copied().map(number);
        assert_eq!(last("F_p"), Some(patch.force() as i32));
        assert_eq!((last("p_p"), last("depth")), (Some(patch.pressure() as i32), Some(5000)));
        assert_eq!([last("s"), last("from"), last("to")], [Some(1000), Some(4500), Some(5500)]);
    }
    let small = page(&[("diameter", "4999 mm"), HEADROOM], 5000, 10, Format::Json, Units::Kilo);
    assert_eq!(fields(&small, "s")[1..], ["999.8"]);
    assert_eq!(fields(&small, "depth_below_grain")[1..], ["4300"]);
    stored("host/tests/golden/patch.json", small.as_bytes());
}

/// A refusal of the library, or a text that cannot be read, is an object as it is for loads.
#[test]
fn a_refused_patch_in_json() {
    for (number, title, changes, depth) in REFUSED {
        let outcome = asked(changes, depth, 10, Format::Json, Units::Whole);
        assert_eq!((outcome.status, outcome.messages.as_str()), (1, ""), "{title}");
        let json = String::from_utf8(outcome.output).expect("UTF-8");
        assert_eq!(fields(&json, "refusal")[0], number.to_string(), "{json}");
    }
    let text = text_with(&[("diameter", "5 yards")]);
    let json = |outcome: Outcome| (outcome.status, outcome.messages, outcome.output);
    let patch = commands::patch("b.silo", text.as_bytes(), (0, 10), Format::Json, Units::Whole);
    let loads = commands::loads("b.silo", text.as_bytes(), Format::Json, Units::Whole);
    assert_eq!(json(patch), json(loads));
}

const CONCRETE: Changes = &[("wall", "concrete")];
const STIFFENED: Changes = &[("wall", "corrugated"), ("stiffeners", "yes"), HEADROOM];

/// As many numbers as a patch on squares has, and what it says, at the wall's middle, at its ends and above the grain.
#[test]
fn a_concrete_or_stiffened_circle_has_squares() {
    let mut said = String::new();
    for (changes, depth, units) in [
        (CONCRETE, 5000, Units::Whole),
        (CONCRETE, 0, Units::Whole),
        (STIFFENED, 10_000, Units::Kilo),
        (STIFFENED, 700, Units::Kilo),
    ] {
        let p_p = p_p(&described(&text_with(changes)), depth).expect("an accepted silo");
        for format in [Format::Table, Format::Csv, Format::CsvSemicolon, Format::Json] {
            let page = page(changes, depth, 1, format, units);
            said += &format!("== {changes:?}, --depth {depth} mm, {format:?}\n{page}\n");
            let number = units.show(p_p);
            let shown = match format {
                Format::Table => format!("p_p {number} "),
                Format::Csv => format!("square,2,{number},"),
                Format::CsvSemicolon => format!("square;2;{};", number.replace('.', ",")),
                Format::Json => format!("\"p_p\": {number},"),
            };
            assert!(page.contains(&shown), "{shown}: {page}");
            let round =
                ["at 0 degrees", "degree,", "degree;", "force,", "force;", "\"degrees\": ["];
            assert!(round.iter().all(|words| !page.contains(words)), "{page}");
        }
    }
    stored("host/tests/golden/squares.txt", said.as_bytes());
}

/// Of a wall that is not named.
const UNNAMED: &str = "a band s = 1000 mm high at any depth, p_p times the cosine of the angle round the shell (5.10, 5.11); on a concrete or \
     stiffened wall on two opposite squares (5.2.1.1, 4).";

/// Silos, and on what the patch acts by the note of the loads.
const PLACES: [(Changes, &str); 7] = [
    (&[], UNNAMED),
    (&[("stiffeners", "no")], UNNAMED),
    (&[("wall", "steel")], "a band s = 1000 mm high at any depth, p_p times the cosine of the angle round the shell (5.10, 5.11)."),
    (CONCRETE, "two opposite squares of s = 1000 mm at any place of the wall, which is concrete (5.2.1.1, 4; 5.10)."),
    (
        &[("wall", "steel"), ("stiffeners", "yes")],
        "two opposite squares of s = 1000 mm at any place of the wall, which has stiffeners (5.2.1.1, 4; 5.10).",
    ),
    (&RECTANGLE, "two opposite squares of s = 1000 mm at any place of the wall (5.10)."),
    (
        &[RECTANGLE[0], RECTANGLE[1], ("stiffeners", "yes")],
        "two opposite squares of s = 1000 mm at any place of the wall (5.10).",
    ),
];

#[test]
fn the_loads_say_on_what_the_patch_acts() {
    for (changes, place) in PLACES {
        let text = text_with(changes);
        for format in [Format::Table, Format::Csv, Format::Json] {
            let outcome = commands::loads("bin.silo", text.as_bytes(), format, Units::Whole);
            let page = String::from_utf8(outcome.output).expect("UTF-8");
            let page = page.split_whitespace().collect::<Vec<&str>>().join(" ");
            assert!(
                page.contains(&format!("as p_he + p_p of the strakes has it: it acts on {place}")),
                "{page}"
            );
        }
    }
}

/// Each output is known by its bytes, so that another patch may replace it and nothing else.
#[test]
fn outputs_of_a_patch_are_known() {
    for changes in [&[][..], CONCRETE] {
        let of = |format| Kind::of(page(changes, 5000, 10, format, Units::Whole).as_bytes());
        assert_eq!(of(Format::Table), Some(Kind::Patch));
        assert_eq!(of(Format::Csv), Some(Kind::PatchCsv));
        assert_eq!(of(Format::CsvSemicolon), Some(Kind::PatchCsv));
        assert_eq!(of(Format::Json), Some(Kind::PatchJson));
        let text = text_with(changes);
        let drawn = commands::draw_patch("bin.silo", text.as_bytes(), 5000, Units::Whole);
        assert_eq!(Kind::of(&drawn.output), Some(Kind::PatchDrawing));
        let loads = |format| commands::loads("bin.silo", text.as_bytes(), format, Units::Whole);
        assert_eq!(Kind::of(&loads(Format::Json).output), Some(Kind::Json));
        assert_eq!(Kind::of(&loads(Format::Csv).output), Some(Kind::Csv));
    }
}
