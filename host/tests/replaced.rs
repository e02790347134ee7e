//! No work is lost: an output of another silo, a CSV that was changed, and what carries no name.

mod common;
mod folder;

use common::sample;
use folder::{bash, ended, output, Folder};
use std::fs::{self, File, Permissions};
use std::os::unix::fs::{symlink, PermissionsExt};
use std::process::Output;

const ANOTHER: &str = "; choose another name, or --force replaces it\n";

/// Outputs that name their silo: the command, the file to write, and what it is.
const NAMED: [(&[&str], &str, &str); 10] = [
    (&["loads"], "out.txt", "a table of loads"),
    (&["loads", "--csv"], "out.csv", "CSV of loads"),
    (&["loads", "--csv-semicolon", "--kpa"], "out.csv", "CSV of loads"),
    (&["loads", "--json"], "out.json", "JSON of loads"),
    (&["patch", "--depth", "8 m"], "out.txt", "a table of a patch"),
    (&["patch", "--depth", "8 m", "--csv"], "out.csv", "CSV of a patch"),
    (&["patch", "--depth", "8 m", "--csv-semicolon"], "out.csv", "CSV of a patch"),
    (&["patch", "--depth", "8 m", "--json"], "out.json", "JSON of a patch"),
    (&["draw"], "out.svg", "a drawing"),
    (&["draw", "--depth", "8 m"], "out.svg", "a drawing of a patch"),
];

/// Two silos of one customer, one of another, and the first one's sheet.
fn with_silos(name: &str) -> Folder {
    let folder = Folder::with_silo(name);
    for customer in ["a", "b"] {
        fs::create_dir(folder.path(customer)).expect("a folder");
        folder.put(&format!("{customer}/w.silo"), &sample("wheat-tower.silo"));
    }
    folder.put("x.silo", &sample("cement.silo"));
    folder.writes(&["sheet", "w.silo", "-o", "w.sheet"], "w.sheet");
    folder
}

/// A command's words for a silo and a file to write.
fn words<'a>(command: &[&'a str], silo: &'a str, file: &'a str) -> Vec<&'a str> {
    [command, &["-o", file, "--", silo]].concat()
}

#[test]
fn an_output_of_another_silo_stays_unless_forced() {
    let folder = with_silos("silos");
    for (command, file, what) in NAMED {
        folder.writes(&words(command, "w.silo", file), file);
        for same in ["./w.silo", "w.sheet", "a/w.silo"] {
            let said = folder.writes(&words(command, same, file), file);
            assert!(said.contains(" replaced, ") && !said.contains("the old one"), "{said}");
        }
        for other in ["x.silo", "b/w.silo"] {
            let said = format!("silo: {file} holds {what} of a/w.silo, not of {other}{ANOTHER}");
            folder.refuses(&mut folder.silo(&words(command, other, file)), &said);
        }
        folder.writes(&words(&[command, &["--force"]].concat(), "x.silo", file), file);
        assert!(!folder.path(&format!("{file}~")).exists());
        fs::remove_file(folder.path(file)).expect(file);
    }
}

/// Names that CSV, JSON and drawings write in their own ways.
#[test]
fn every_name_is_read_back() {
    let folder = Folder::with_silo("names");
    let names = [
        "a,b.silo",
        "a;b.silo",
        "\"a\" 'b'.silo",
        "=1.silo",
        "-1.silo",
        "'a.silo",
        "<&amp;>.silo",
        "b\\u0041.silo",
        "blé.v2.silo",
    ];
    for (command, file, _) in NAMED {
        for name in names {
            folder.put(name, &sample("wheat-tower.silo"));
            folder.writes(&words(command, name, file), file);
            let said = folder.writes(&words(command, name, file), file);
            assert!(said.contains(" replaced, ") && !said.contains("the old one"), "{said}");
            folder.refuses(&mut folder.silo(&words(command, "w.silo", file)), ", not of w.silo; ");
            fs::remove_file(folder.path(file)).expect(file);
        }
    }
}

/// What carries no name: a page, a sheet, and all that is made of standard input.
#[test]
fn the_replaced_one_is_left_beside() {
    let folder = with_silos("beside");
    for (command, file) in [("page", "out.page"), ("page", "out"), ("sheet", "out.sheet")] {
        let of = |silo| [command, silo, "-o", file];
        let copy = format!("{file}~");
        folder.writes(&of("w.silo"), file);
        let said = folder.writes(&of("w.silo"), file);
        assert!(said.ends_with(" bytes\n"), "an equal one needs no copy: {said}");
        assert!(!folder.path(&copy).exists());
        let first = folder.get(file);
        let said = folder.writes(&of("x.silo"), file);
        assert!(said.ends_with(&format!(" bytes; the old one is {copy}\n")), "{said}");
        assert_eq!(folder.get(&copy), first);
        // one copy is kept, that of the last
        let second = folder.get(file);
        folder.writes(&of("w.silo"), file);
        assert_eq!(folder.get(&copy), second);
        folder.writes(&[&of("x.silo")[..], &["--force"]].concat(), file);
        assert_eq!(folder.get(&copy), second, "forced, it is replaced without a copy");
    }
}

/// A sheet that the library refuses is written, and leaves the old one beside.
#[test]
fn a_refused_sheet_leaves_the_old_one_beside() {
    let folder = with_silos("refused-sheet");
    folder.put("x.silo", &sample("blank-friction.silo"));
    let old = folder.get("w.sheet");
    let (status, said) = ended(&mut folder.silo(&["sheet", "x.silo", "-o", "w.sheet"]));
    let words = "silo: w.sheet: sheet replaced, 126 bytes; the old one is w.sheet~\n";
    assert_eq!((status, said.ends_with(words)), (1, true), "{said}");
    assert_eq!(folder.get("w.sheet~"), old);
}

#[test]
fn outputs_of_standard_input_carry_no_name() {
    let folder = with_silos("input");
    for (command, file, what) in NAMED {
        let fed = |arguments: &[&str], silo: &str| {
            let input = File::open(folder.path(silo)).expect(silo);
            ended(folder.silo(arguments).stdin(input))
        };
        let [from_input, of_x] = ["-", "x.silo"].map(|silo| words(command, silo, file));
        let beside = format!("; the old one is {file}~\n");
        folder.writes(&words(command, "w.silo", file), file);
        let old = folder.get(file);
        let (status, said) = fed(&from_input, "x.silo");
        assert_eq!((status, said.ends_with(&beside)), (0, true), "{said}");
        assert_eq!(folder.get(&format!("{file}~")), old);
        let old = folder.get(file);
        let said = folder.writes(&of_x, file);
        assert!(said.ends_with(&beside), "{said}");
        assert_eq!(folder.get(&format!("{file}~")), old, "{what}");
        fs::remove_file(folder.path(file)).expect(file);
        fs::remove_file(folder.path(&format!("{file}~"))).expect(file);
    }
}

#[test]
fn nothing_is_replaced_where_no_copy_can_be_left() {
    let folder = with_silos("copies");
    folder.writes(&["page", "w.silo", "-o", "out.page"], "out.page");
    let page = &["page", "x.silo", "-o", "out.page"];
    let start = "silo: out.page: not written: the old one is to be left as out.page~: that ";
    let end = "; choose another name, or --force replaces it; the old file is as it was\n";
    let copy = folder.path("out.page~");
    let refuses = |why: &str| folder.refuses(&mut folder.silo(page), &format!("{start}{why}{end}"));

    fs::create_dir(&copy).expect("a folder");
    refuses("is no plain file");
    fs::remove_dir(&copy).expect("the folder");
    for to in ["out.page", "gone", "w.silo"] {
        symlink(to, &copy).expect("a link");
        refuses("is no plain file");
        fs::remove_file(&copy).expect("the link");
    }
    for (held, why) in [
        (sample("wheat-tower.silo"), "holds a silo's text, not a load page"),
        (b"ours".to_vec(), "holds something other than a load page by silo"),
    ] {
        folder.put("out.page~", &held);
        refuses(why);
        fs::remove_file(&copy).expect("the file");
    }
    fs::hard_link(folder.path("x.silo"), &copy).expect("a hard link");
    refuses("is the file that is read");
    fs::remove_file(&copy).expect("the link");

    folder.put("out.page~", &sample("cement.page"));
    fs::set_permissions(&copy, Permissions::from_mode(0o444)).expect("a mode");
    folder.refuses(&mut folder.silo(page), "out.page~: the file is write-protected; ");
    // an equal page needs none of this
    folder.writes(&["page", "w.silo", "-o", "out.page"], "out.page");
}

/// Of two files the second does not fit on the disk: the new one is written first, then the copy.
#[test]
fn a_full_disk_leaves_page_and_copy() {
    let folder = with_silos("full-copy");
    folder.put("out.page", &[&sample("wheat-tower.page")[..], &[b'\n'; 4096]].concat());
    folder.put("out.page~", &sample("cement.page"));
    let script = "trap '' XFSZ; ulimit -f 2; exec $silo page w.silo -o out.page";
    folder.refuses(
        &mut bash(&folder, script),
        "silo: out.page: not written: the old one is to be left as out.page~: \
         it is longer than a file may be here (",
    );
    let script = "trap '' XFSZ; ulimit -f 1; exec $silo page w.silo -o out.page";
    folder.refuses(
        &mut bash(&folder, script),
        "silo: out.page: not written: it is longer than a file may be here (",
    );
}

/// The copy of what a link leads to lies beside that, with its permissions.
#[test]
fn the_copy_lies_behind_links() {
    let folder = with_silos("copy-links");
    folder.put("a/real.page", &sample("barley-bin.page"));
    fs::set_permissions(folder.path("a/real.page"), Permissions::from_mode(0o604)).expect("mode");
    symlink("a/real.page", folder.path("out.page")).expect("a link");
    let said = folder.writes(&["page", "w.silo", "-o", "out.page"], "out.page");
    assert!(said.ends_with("/a/real.page~\n"), "{said}");
    assert_eq!(folder.get("a/real.page"), sample("wheat-tower.page"));
    assert_eq!(folder.get("a/real.page~"), sample("barley-bin.page"));
    let copy = fs::metadata(folder.path("a/real.page~")).expect("the copy");
    assert_eq!(copy.permissions().mode() & 0o777, 0o604);
    assert_eq!(folder.path("a").read_dir().expect("a").count(), 3);
}

/// Every CSV that the tool writes.
const CSV: [&[&str]; 6] = [
    &["loads", "w.silo", "--csv"],
    &["loads", "w.silo", "--csv-semicolon", "--kpa"],
    &["patch", "w.silo", "--depth", "8 m", "--csv"],
    &["patch", "w.silo", "--depth", "8 m", "--all", "--csv-semicolon"],
    &["catalogue", "--csv"],
    &["catalogue", "--csv-semicolon"],
];

#[test]
fn a_csv_that_was_changed_stays_unless_forced() {
    let folder = Folder::with_silo("changed");
    for command in CSV {
        let arguments = [command, &["-o", "out.csv"]].concat();
        let written = folder.prints(command);
        let csv = String::from_utf8(written.clone()).expect("UTF-8");
        let (rows, _) = csv.trim_end().rsplit_once('\n').expect("rows");
        let check = &csv[rows.len() + 1..];
        let cells = |row: &str| row.matches([',', ';']).count();
        let row = csv.lines().find(|row| row.starts_with("degree") || row.contains("part"));
        let row = row.or(csv.lines().next()).expect("a row");
        assert_eq!((cells(check), check.starts_with("check")), (cells(row), true), "{check}");
        folder.put("out.csv", &written);
        folder.writes(&arguments, "out.csv");
        let changed = "was changed since it was written: its check number differs";
        let unknown = "may have been changed since it was written: its last row is no check row";
        for (held, words) in [
            (csv.replacen("0", "1", 1), changed),
            (csv.replace('\n', "\r\n"), changed),
            (format!("{csv}\n"), unknown),
            (format!("{csv}ours"), unknown),
            (format!("{rows}\n"), unknown),
            (format!("{rows}\nours\n{check}"), changed),
            (csv.replace("check", "check 1"), unknown),
            (format!("{}ours\n", csv.trim_end()), unknown),
        ] {
            folder.put("out.csv", held.as_bytes());
            let words = format!("silo: out.csv {words}{ANOTHER}");
            folder.refuses(&mut folder.silo(&arguments), &words);
        }
        folder.writes(&[&arguments[..], &["--force"]].concat(), "out.csv");
        assert_eq!(folder.get("out.csv"), written);
    }
}

/// What a failed run says of the file that was to be written.
#[test]
fn what_stays_is_said() {
    let folder = Folder::with_silo("stays");
    let loads = |more: &[&str]| folder.prints(&[&["loads", "w.silo"], more].concat());
    folder.put("w.csv", &loads(&["--csv"]));
    folder.put("w.json", &loads(&["--json"]));
    folder.put("w.txt", &loads(&[]));
    folder.put("w.svg", &folder.prints(&["draw", "w.silo", "-o", "-"]));
    folder.put("w.page", &folder.prints(&["page", "w.silo"]));
    folder.put("w.sheet", &folder.prints(&["sheet", "w.silo", "-o", "-"]));
    folder.put("ours.csv", b"bolts,400\n");
    folder.put("empty.csv", b"");
    let cases: [(&[&str], &str); 8] = [
        (&["loads", "--csv", "-o", "w.csv"], ": CSV of loads of w.silo"),
        (&["loads", "--json", "-o", "w.json"], ": JSON of loads of w.silo"),
        (&["loads", "-o", "w.txt"], ": a table of loads of w.silo"),
        (&["draw", "-o", "w.svg"], ": a drawing of w.silo"),
        (&["page", "-o", "w.page"], ": a load page, which names no silo"),
        (&["loads", "--csv", "--force", "-o", "ours.csv"], ""),
        (&["loads", "--csv", "-o", "empty.csv"], ": empty"),
        (&["sheet", "-o", "w.sheet"], ": a sheet, which names no silo"),
    ];
    for (silo, status) in
        [(&b"diameter = 5 furlongs\n"[..], 2), (&sample("blank-friction.silo"), 1)]
    {
        folder.put("w.silo", silo);
        for (command, held) in cases {
            if command[0] == "sheet" && status == 1 {
                continue;
            }
            let before = folder.state();
            let ended = output(folder.silo(command).arg("w.silo"));
            let said = String::from_utf8_lossy(&ended.stderr).into_owned();
            assert_eq!(ended.status.code(), Some(status), "{command:?}: {said}");
            let file = command.last().expect("a file");
            let words = format!("silo: {file} stays as it was{held}\n");
            assert!(said.ends_with(&words), "{command:?}: {said}");
            assert_eq!(said.matches("stays as it was").count(), 1, "{said}");
            assert!(before == folder.state());
        }
    }
    // no file, a device, and what is printed
    for more in [&["-o", "new.csv"][..], &["-o", "/dev/null"], &["-o", "-"], &[]] {
        let Output { stderr, .. } = output(folder.silo(&["loads", "w.silo", "--csv"]).args(more));
        assert!(!String::from_utf8_lossy(&stderr).contains("stays"), "{more:?}");
    }
    let (status, said) = ended(&mut folder.silo(&["loads", "none.silo", "--csv", "-o", "w.csv"]));
    let words = "silo: none.silo: there is no such file\n\
                 silo: w.csv stays as it was: CSV of loads of w.silo\n";
    assert_eq!((status, said.as_str()), (2, words));
}
