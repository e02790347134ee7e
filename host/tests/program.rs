//! The program as a person runs it: stored outputs of every sample, standard input and output, exit
//! status. What it does to files is in `files.rs`.

mod common;

use common::{root, sample, stored};
use std::ffi::OsStr;
use std::io::Write;
use std::os::unix::ffi::OsStrExt;
use std::path::{Path, PathBuf};
use std::process::{Command, Output, Stdio};

fn silo(arguments: &[&str]) -> Command {
    let mut command = Command::new(env!("CARGO_BIN_EXE_silo"));
    command.current_dir(root()).args(arguments);
    command
}

fn run(arguments: &[&str]) -> Output {
    silo(arguments).output().expect("the program runs")
}

/// A run with that status; what it writes, standard output first.
fn written(arguments: &[&str], status: i32) -> Vec<u8> {
    let output = run(arguments);
    assert_eq!(output.status.code(), Some(status), "{arguments:?}: {output:?}");
    [output.stdout, output.stderr].concat()
}

fn fed(arguments: &[&str], input: &[u8]) -> Output {
    let pipes =
        silo(arguments).stdin(Stdio::piped()).stdout(Stdio::piped()).stderr(Stdio::piped()).spawn();
    let mut child = pipes.expect("the program runs");
    child.stdin.take().expect("a pipe").write_all(input).expect("the input is read");
    child.wait_with_output().expect("the program ends")
}

fn scratch(name: impl AsRef<Path>) -> PathBuf {
    PathBuf::from(env!("CARGO_TARGET_TMPDIR")).join(name)
}

/// Each with the exit status of its loads and of its sheet.
const SAMPLES: [(&str, i32, i32); 9] = [
    ("wheat-tower", 0, 0),
    ("barley-bin", 0, 0),
    ("cement", 0, 0),
    ("corrugated-bin", 0, 0),
    ("flat-store", 0, 0),
    ("headroom-bin", 0, 0),
    ("blank-factor", 0, 0),
    ("blank-friction", 1, 1),
    ("long-store", 1, 0),
];

/// Outputs of the samples that are not tables: where they are stored, and the command.
const OUTPUTS: [(&str, &[&str]); 20] = [
    ("samples/wheat-tower.csv", &["loads", "samples/wheat-tower.silo", "--csv"]),
    ("samples/barley-bin.csv", &["loads", "--csv", "samples/barley-bin.silo"]),
    ("samples/corrugated-bin.csv", &["loads", CORRUGATED, "--csv-semicolon", "--kpa"]),
    ("samples/wheat-tower.json", &["loads", "samples/wheat-tower.silo", "--json"]),
    ("samples/barley-bin.json", &["loads", "samples/barley-bin.silo", "--json"]),
    ("samples/flat-store.csv", &["loads", "samples/flat-store.silo", "--csv"]),
    ("samples/flat-store.json", &["loads", "samples/flat-store.silo", "--json"]),
    ("samples/headroom-bin.csv", &["loads", "samples/headroom-bin.silo", "--csv"]),
    ("samples/headroom-bin.json", &["loads", "samples/headroom-bin.silo", "--json"]),
    ("samples/blank-factor.csv", &["loads", "samples/blank-factor.silo", "--csv"]),
    ("samples/blank-factor.json", &["loads", "samples/blank-factor.silo", "--json"]),
    ("samples/wheat-tower.patch", &["patch", "samples/wheat-tower.silo", "--depth", "8", "m"]),
    ("samples/headroom-bin.patch", &["patch", HEADROOM, "--depth", "8", "m", "--kpa"]),
    ("samples/wheat-tower-patch.csv", &["patch", WHEAT, "--depth", "8 m", "--all", "--csv"]),
    ("docs/wheat-tower-patch.svg", &["draw", WHEAT, "--depth", "8", "m", "-o", "-"]),
    ("docs/wheat-tower.svg", &["draw", "samples/wheat-tower.silo", "-o", "-"]),
    ("docs/barley-bin.svg", &["draw", "samples/barley-bin.silo", "-o", "-"]),
    ("docs/corrugated-bin.svg", &["draw", CORRUGATED, "--kpa", "-o", "-"]),
    ("docs/flat-store.svg", &["draw", "samples/flat-store.silo", "-o", "-"]),
    ("docs/headroom-bin.svg", &["draw", "samples/headroom-bin.silo", "-o", "-"]),
];
const CORRUGATED: &str = "samples/corrugated-bin.silo";
const HEADROOM: &str = "samples/headroom-bin.silo";
const WHEAT: &str = "samples/wheat-tower.silo";
const BLANK: &str = "samples/blank-friction.silo";
const LONG: &str = "samples/long-store.silo";

#[test]
fn samples_as_stored() {
    let folder = root().join("samples").read_dir().expect("samples");
    let texts = folder.filter(|file| {
        file.as_ref().is_ok_and(|file| file.path().extension().is_some_and(|e| e == "silo"))
    });
    assert_eq!(texts.count(), SAMPLES.len());
    for (name, status, _) in SAMPLES {
        let file = format!("samples/{name}.silo");
        let loads = run(&["loads", &file]);
        let page = run(&["page", &file]);
        stored(&format!("samples/{name}.expected"), &[loads.stdout, loads.stderr.clone()].concat());
        stored(&format!("samples/{name}.page"), &page.stdout);
        assert_eq!(page.stderr, loads.stderr, "a refusal in words");
        assert_eq!([page.status, loads.status].map(|ended| ended.code()), [Some(status); 2]);
    }
    for (file, arguments) in OUTPUTS {
        stored(file, &written(arguments, 0));
    }
}

#[test]
fn pages_as_stored() {
    let pages: [(&[&str], i32); 77] = [
        (&["--version"], 0),
        (&["--help"], 0),
        (&["catalogue"], 0),
        (&["catalogue", "--csv"], 0),
        (&["catalogue", "--csv-semicolon"], 0),
        (&["catalogue", "--json"], 0),
        (&["catalogue", "--kpa"], 2),
        (&["catalogue", "wheat"], 2),
        (&[], 2),
        (&["lods", "samples/cement.silo"], 2),
        (&["loads"], 2),
        (&["loads", "samples/cement.silo", "samples/cement.silo"], 2),
        (&["loads", "samples/none.silo"], 2),
        (&["loads", "samples/none.silo", "--json"], 2),
        (&["loads", "samples"], 2),
        (&["loads", "/dev/zero"], 2),
        (&["loads", "samples/cement.silo", "--csv", "--json"], 2),
        (&["loads", "samples/cement.silo", "--json", "--csv-semicolon"], 2),
        (&["loads", "samples/cement.silo", "--csv", "--csv"], 2),
        (&["loads", "samples/cement.silo", "--kpa", "--kpa"], 2),
        (&["loads", "samples/cement.silo", "--xml"], 2),
        (&["loads", "samples/cement.silo", "--kPa"], 2),
        (&["loads", "samples/cement.silo", "--cvs"], 2),
        (&["loads", "samples/cement.silo", "-x"], 2),
        (&["loads", "samples/cement.silo", "--force"], 2),
        (&["loads", "samples/cement.silo", "--force", "-o", "-"], 2),
        (&["loads", "samples/cement.silo", "-o", "samples/cement.pdf"], 2),
        (&["loads", "samples/cement.silo", "-o", "samples"], 2),
        (&["pages", "samples/cement.silo"], 2),
        (&["page"], 2),
        (&["page", "samples/cement.silo", "samples/cement.silo"], 2),
        (&["page", "samples/none.silo"], 2),
        (&["page", "samples/cement.page"], 2),
        (&["page", "samples/cement.silo", "--csv"], 2),
        (&["page", "samples/cement.silo", "--csv-semicolon"], 2),
        (&["page", "samples/cement.silo", "--json"], 2),
        (&["page", "samples/cement.silo", "--kpa"], 2),
        (&["page", "samples/cement.silo", "--force"], 2),
        (&["page", "samples/cement.silo", "-o", "samples/cement.expected"], 2),
        (&["patch"], 2),
        (&["patch", "samples/cement.silo"], 2),
        (&["patch", "--depth", "8", "m"], 2),
        (&["patch", "samples/cement.silo", "--depth"], 2),
        (&["patch", "samples/cement.silo", "--depth", ""], 2),
        (&["patch", "samples/cement.silo", "--depth", "--csv"], 2),
        (&["patch", "samples/cement.silo", "--depth", "deep"], 2),
        (&["patch", "samples/cement.silo", "--depth", "8"], 2),
        (&["patch", "--depth", "8", "samples/cement.silo"], 2),
        (&["patch", "samples/cement.silo", "--depth", "8", "ft"], 2),
        (&["patch", "samples/cement.silo", "--depth", "8 ft"], 2),
        (&["patch", "samples/cement.silo", "--depth", "8,5", "m"], 2),
        (&["patch", "samples/cement.silo", "--depth", "-8", "m"], 2),
        (&["patch", "samples/cement.silo", "--depth", "8.0005", "m"], 2),
        (&["patch", "samples/cement.silo", "--depth", "4294967296", "mm"], 2),
        (&["patch", "samples/cement.silo", "--depth", "8 m", "mm"], 2),
        (&["patch", "samples/cement.silo", "--depth", "8 m", "--depth", "9 m"], 2),
        (&["patch", "samples/cement.silo", "--depth", "8", "m", "--json"], 0),
        (&["patch", "samples/cement.silo", "--depth", "8", "m", "-o", "patch.svg"], 2),
        (&["patch", "samples/cement.silo", "--depth", "16801", "mm"], 1),
        (&["patch", "samples/barley-bin.silo", "--depth", "8", "m"], 1),
        (&["draw", "samples/barley-bin.silo", "--depth", "8 m", "-o", "patch.svg"], 1),
        (&["draw", "samples/cement.silo", "--depth", "8 m", "--all", "-o", "patch.svg"], 2),
        (&["loads", "samples/cement.silo", "--depth", "8", "m"], 2),
        (&["loads", "samples/cement.silo", "--all"], 2),
        (&["draw", "samples/cement.silo"], 2),
        (&["draw", "samples/cement.silo", "-o"], 2),
        (&["draw", "samples/cement.silo", "-o", ""], 2),
        (&["draw", "samples/cement.silo", "-o", "--force"], 2),
        (&["draw", "samples/cement.silo", "-o", "a.svg", "-o", "b.svg"], 2),
        (&["draw", "samples/cement.silo", "-o", "samples/none/cement.svg"], 2),
        (&["draw", "samples/cement.silo", "-o", "samples/cement.silo", "--force"], 2),
        (&["draw", "samples/cement.silo", "-o", "cement.svg", "--json"], 2),
        (&["sheet", "samples/cement.silo", "-o", "samples/cement.silo"], 2),
        (&["sheet", "samples/cement.silo", "-o", "cement.sheet", "--kpa"], 2),
        (&["loads", "samples/cement.silo", "--csv", "-o", "host/Cargo.toml"], 2),
        (&["explain", "samples/cement.silo"], 2),
        (&["explain", "samples/cement.silo", "--csv"], 2),
    ];
    let mut page = Vec::new();
    for (arguments, status) in pages {
        page.extend(format!("== silo {}\n", arguments.join(" ")).bytes());
        page.extend(written(arguments, status));
    }
    stored("host/tests/golden/pages.txt", &page);
}

#[test]
fn help_fits_a_terminal() {
    let help = String::from_utf8(written(&["--help"], 0)).expect("ASCII");
    assert!(help.lines().all(|line| line.len() <= 80), "{help}");
}

/// A depth in one word or two, before or after the file, in any unit.
#[test]
fn a_depth_in_every_form() {
    let forms: [&[&str]; 8] = [
        &["8", "m"],
        &["8 m"],
        &["8m"],
        &["8000", "mm"],
        &["8000mm"],
        &["800", "cm"],
        &["8.0", "M"],
        &[" 8 m "],
    ];
    let words: [&[&str]; 5] = [
        &["--depth=8m"],
        &["--depth=8 m"],
        &["--depth=8", "m"],
        &["--depth", "=", "8", "m"],
        &["--depth=", "8m"],
    ];
    let forms = forms.map(|form| [&["--depth"], form].concat());
    for form in forms.iter().map(Vec::as_slice).chain(words) {
        for arguments in [[&["patch", WHEAT], form].concat(), [&["patch"], form, &[WHEAT]].concat()]
        {
            assert_eq!(written(&arguments, 0), sample("wheat-tower.patch"), "{arguments:?}");
        }
    }
    let at_brim = written(&["patch", WHEAT, "--depth", "0", "mm"], 0);
    assert_eq!(written(&["patch", "--depth", "0", WHEAT], 0), at_brim);
}

/// Text to bytes to text and back, through files; bytes give the loads and the page that the text gives.
#[test]
fn sheets_of_the_samples() {
    for (name, _, status) in SAMPLES {
        let text = format!("samples/{name}.silo");
        let [sheet, again] =
            [scratch(format!("{name}.sheet")), scratch(format!("{name}-again.sheet"))];
        let [sheet, again] = [&sheet, &again].map(|path| path.to_str().expect("UTF-8"));
        written(&["sheet", &text, "-o", sheet], status);
        let explained = run(&["explain", sheet]);
        assert_eq!(explained.status.code(), Some(0));
        let explained = explained.stdout;
        stored(&format!("host/tests/golden/{name}.explained"), &explained);
        let output = fed(&["sheet", "-", "-o", again], &explained);
        assert_eq!(output.status.code(), Some(status));
        let bytes = std::fs::read(sheet).expect(sheet);
        assert_eq!(bytes, std::fs::read(again).expect(again));
        let [from_text, from_bytes] =
            [run(&["loads", &text, "--csv"]), fed(&["loads", "-", "--csv"], &bytes)];
        assert_eq!(loads(&from_text.stdout), loads(&from_bytes.stdout));
        assert_eq!(from_text.status, from_bytes.status);
        let pages = [
            run(&["page", &text]),
            run(&["page", sheet]),
            fed(&["page", "-"], &sample(&format!("{name}.silo"))),
            fed(&["page", "-", "-o", "-"], &bytes),
        ];
        for page in pages {
            assert_eq!(page.stdout, sample(&format!("{name}.page")));
            assert_eq!(page.status, from_text.status);
        }
    }
}

/// The rows of the loads, without what a sheet does not hold.
fn loads(csv: &[u8]) -> String {
    let csv = String::from_utf8(csv.to_vec()).expect("UTF-8");
    let of_loads =
        |line: &&str| !["silo,", "note,", "check,"].iter().any(|part| line.starts_with(part));
    csv.lines().filter(of_loads).collect::<Vec<&str>>().join("\n")
}

/// Two names that are not UTF-8 and look the same where they are shown.
#[test]
fn names_of_any_bytes() {
    let [text, sheet] = [b"tower-\xff", b"tower-\xfe"].map(|name| scratch(OsStr::from_bytes(name)));
    std::fs::write(&text, sample("wheat-tower.silo")).expect("a text");
    let ended = |command: &mut Command| command.output().expect("the program runs");
    let made = ended(silo(&["sheet"]).arg(&text).arg("-o").arg(&sheet));
    assert_eq!(made.status.code(), Some(0), "{made:?}");
    for file in [&text, &sheet] {
        let shown = ended(silo(&["loads", "--csv"]).arg(file)).stdout;
        assert_eq!(loads(&shown), loads(&sample("wheat-tower.csv")));
    }
    let refused = ended(silo(&["explain"]).arg(&text));
    let message = String::from_utf8(refused.stderr).expect("UTF-8");
    assert!(message.ends_with("/tower-\u{fffd}: text; silo explain reads a sheet of bytes\n"));
}

#[test]
fn nothing_is_written_for_a_refused_drawing() {
    let file = scratch("refused.svg");
    let output = ["-o", file.to_str().expect("UTF-8")];
    for drawn in [&[BLANK][..], &[LONG], &["samples/flat-store.silo", "--depth", "2 m"]] {
        written(&[&["draw"], drawn, &output].concat(), 1);
        assert!(!file.exists());
    }
}

#[test]
fn a_reader_that_goes_away_is_no_error() {
    let mut child = silo(&["catalogue"])
        .stdout(Stdio::piped())
        .stderr(Stdio::piped())
        .spawn()
        .expect("it runs");
    drop(child.stdout.take());
    let output = child.wait_with_output().expect("it ends");
    assert!(output.stderr.is_empty());
    assert_eq!(output.status.code(), Some(0));
}
