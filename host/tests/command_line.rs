//! Words that are nearly a command: what is said of them, and the whole right command.

mod common;
mod folder;

use common::{sample, stored};
use folder::{ended, output, Folder};
use std::ffi::OsStr;
use std::fs;
use std::os::unix::ffi::OsStrExt;

/// Command lines that end with status 2, in a folder with tower.silo, `my tower.silo`, Bin.sheet and a folder barn beside barn.silo.
const SLIPS: [&[&str]; 47] = [
    &["tower.silo"],
    &["tower.silo", "--csv", "-o", "tower.csv"],
    &["--kpa", "tower.silo"],
    &["tower.silo", "-o", "tower.svg"],
    &["tower.silo", "-o", "tower.page"],
    &["tower.silo", "-o=tower.sheet"],
    &["tower.silo", "--depth", "8", "m"],
    &["tower.silo", "--depth=8m", "--all", "--csv", "-o", "patch.csv"],
    &["tower.silo", "--depth", "8 m", "-o", "patch.svg"],
    &["tower.silo", "loads", "--kpa"],
    &["my tower.silo", "draw", "-o", "my.svg"],
    &["tower", "sheet", "-o", "sheet"],
    &["none.silo"],
    &["tower"],
    &["bin"],
    &["none"],
    &["load"],
    &["loads", "tower"],
    &["loads", "tower."],
    &["loads", "Tower.Silo", "--kpa"],
    &["loads", "tower.txt"],
    &["loads", "./tower", "--csv", "-o", "tower.csv"],
    &["loads", "barn"],
    &["loads", "my tower"],
    &["loads", "bin"],
    &["page", "bin.sheet"],
    &["explain", "bin"],
    &["explain", "tower"],
    &["sheet", "tower", "-o", "tower.sheet"],
    &["sheet", "bin", "-o", "tower.sheet"],
    &["sheet", "-o", "tower", "tower"],
    &["loads", "tower", "--json"],
    &["loads", "none/tower"],
    &["loads", "my", "tower.silo"],
    &["loads", "tower.silo", "tower.csv", "--csv"],
    &["loads", "tower.silo", "Bin.sheet"],
    &["loads", "tower.silo", "--csv=tower.csv"],
    &["loads", "tower.silo", "--kpa=yes"],
    &["loads", "tower.silo", "--output=tower.txt"],
    &["loads", "tower.silo", "--out", "tower.txt"],
    &["loads", "tower.silo", "-otower.txt"],
    &["loads", "tower.silo", "--help=loads"],
    &["loads", "tower.silo", "-o="],
    &["loads", "tower.silo", "-o=--force"],
    &["patch", "tower.silo", "--depth="],
    &["patch", "tower.silo", "--depth=8"],
    &["patch", "tower.silo", "--depth=8m", "--depth=9m"],
];

#[test]
fn slips_as_stored() {
    let folder = Folder::new("slips");
    for name in ["tower.silo", "my tower.silo", "barn.silo"] {
        folder.put(name, &sample("wheat-tower.silo"));
    }
    fs::create_dir(folder.path("barn")).expect("a folder");
    folder.writes(&["sheet", "tower.silo", "-o", "Bin.sheet"], "Bin.sheet");
    let before = folder.state();
    let mut page = Vec::new();
    for arguments in SLIPS {
        let output = output(&mut folder.silo(arguments));
        assert_eq!(output.status.code(), Some(2), "{arguments:?}");
        page.extend(format!("== silo {}\n", arguments.join(" ")).bytes());
        page.extend([output.stdout, output.stderr].concat());
    }
    assert!(before == folder.state());
    stored("host/tests/golden/slips.txt", &page);
}

/// What is offered for a file in a command's place is a command that works.
#[test]
fn the_whole_command_works() {
    let folder = Folder::new("offered");
    folder.put("it's.silo", &sample("wheat-tower.silo"));
    for (more, offered) in [
        (&["--json"][..], "silo loads 'it'\\''s.silo' --json"),
        (&["--depth=8m", "-o", "a b.svg"], "silo draw 'it'\\''s.silo' --depth=8m -o 'a b.svg'"),
    ] {
        let said = ended(folder.silo(&["it's.silo"]).args(more)).1;
        let first = said
            .lines()
            .next()
            .and_then(|line| line.split_once("a command is due before a file: "));
        assert_eq!(first.map(|(_, whole)| whole), Some(offered), "{said}");
        let script = offered.replacen("silo", "$silo", 1);
        assert!(output(&mut folder::bash(&folder, &script)).status.success(), "{script}");
    }
    assert!(folder.path("a b.svg").exists());
}

/// A file's name behind `=` keeps its bytes.
#[test]
fn a_name_of_any_bytes_behind_an_equals_sign() {
    let folder = Folder::with_silo("equals");
    let (status, said) =
        ended(folder.silo(&["loads", "w.silo"]).arg(OsStr::from_bytes(b"-o=tower-\xff=1")));
    assert_eq!(status, 0, "{said}");
    let written = fs::read(folder.0.join(OsStr::from_bytes(b"tower-\xff=1"))).expect("the file");
    assert_eq!(written, folder.prints(&["loads", "w.silo"]));
    for words in [&["-o", "=", "a.txt"][..], &["-o=", "a.txt"], &["-o=a.txt"]] {
        folder.writes(&[&["loads", "w.silo"], words].concat(), "a.txt");
    }
}

/// Every product of the table, and the numbers that the table has.
#[test]
fn the_catalogue_as_json() {
    let folder = Folder::new("catalogue");
    let json = String::from_utf8(folder.prints(&["catalogue", "--json"])).expect("UTF-8");
    let csv = String::from_utf8(folder.prints(&["catalogue", "--csv"])).expect("UTF-8");
    let mut products = 0;
    for row in csv.lines().filter(|row| row.starts_with(|c: char| c.is_ascii_digit())) {
        let cells: Vec<&str> = row.split(',').collect();
        let number = |cell: &str| cell.replace('.', "").parse::<u32>().expect("a number");
        let [weight, ratio, steel, concrete, factor] =
            [2, 3, 4, 5, 6].map(|place: usize| number(cells[place]));
        let start =
            format!("{{\"row\": {}, \"name\": \"{}\", \"other_names\": [", cells[0], cells[1]);
        let end = format!(
            "], \"weight_n_per_m3\": {weight}, \"ratio_hundredths\": {ratio}, \
             \"friction_on_steel_hundredths\": {steel}, \
             \"friction_on_concrete_hundredths\": {concrete}, \"factor_hundredths\": {factor}, \
             \"notes\": [{}]}}",
            cells[7].replace(' ', ", ")
        );
        let found =
            |line: &str| line.contains(&start) && line.trim_end_matches(',').ends_with(&end);
        assert!(json.lines().any(found), "{start}..{end}");
        products += 1;
    }
    assert_eq!((products, json.matches("\"other_names\"").count()), (10, 10));
}
