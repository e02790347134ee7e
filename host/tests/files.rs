//! No file is lost: what is refused, what is replaced, and the bytes of every file afterwards.

mod common;
mod folder;

use common::{root, sample};
use folder::{bash, ended, output, Folder};
use std::ffi::OsString;
use std::fs::{self, File, OpenOptions, Permissions};
use std::os::unix::fs::{symlink, FileTypeExt, PermissionsExt};
use std::path::Path;
use std::process::{Command, Output};

fn printed(arguments: &[&str]) -> Vec<u8> {
    shown(arguments, 0)
}

/// What is printed, with that status.
fn shown(arguments: &[&str], status: i32) -> Vec<u8> {
    let mut command = Command::new(env!("CARGO_BIN_EXE_silo"));
    let output = output(command.current_dir(root()).args(arguments));
    assert_eq!(output.status.code(), Some(status), "{arguments:?}");
    output.stdout
}

const READ: &str = "this is the file that is read";
const PATCH: [&str; 4] = ["patch", "--depth", "8", "m"];

#[test]
fn the_file_that_is_read_stays() {
    let folder = Folder::with_silo("read");
    fs::create_dir(folder.path("sub")).expect("a folder");
    symlink("w.silo", folder.path("link.silo")).expect("a link");
    symlink(folder.path("link.silo"), folder.path("link.svg")).expect("a link to a link");
    fs::hard_link(folder.path("w.silo"), folder.path("hard.svg")).expect("a hard link");
    let absolute = folder.path("w.silo");
    let absolute = absolute.to_str().expect("UTF-8");
    let names =
        ["w.silo", "./w.silo", "sub/../w.silo", absolute, "link.silo", "link.svg", "hard.svg"];
    for read in ["w.silo", "link.silo", "hard.svg"] {
        for name in names {
            for command in [&["draw"][..], &["sheet"], &["loads"], &["page"], &PATCH] {
                let arguments = [command, &[read, "-o", name]].concat();
                folder.refuses(&mut folder.silo(&arguments), READ);
                folder.refuses(folder.silo(&arguments).arg("--force"), READ);
            }
        }
    }
    for name in names {
        for read in ["-", "/dev/stdin"] {
            let mut command = folder.silo(&["draw", read, "-o", name, "--force"]);
            let input = File::open(absolute).expect("the silo");
            folder.refuses(command.stdin(input), READ);
        }
    }
    folder.put("w.sheet", &printed(&["sheet", "samples/cement.silo", "-o", "-"]));
    folder.refuses(&mut folder.silo(&["explain", "w.sheet", "-o", "w.sheet", "--force"]), READ);
}

#[test]
fn nothing_is_printed_into_the_file_that_is_read() {
    let folder = Folder::with_silo("printed");
    folder.put("bad.silo", b"diameter = 5 furlongs\n");
    let open = |name: &str| OpenOptions::new().append(true).open(folder.path(name)).expect(name);
    let words = "standard output is the file that is read";
    folder.refuses(folder.silo(&["loads", "w.silo"]).stdout(open("w.silo")), words);
    folder.refuses(folder.silo(&["draw", "w.silo", "-o", "-"]).stdout(open("w.silo")), words);
    let input = File::open(folder.path("w.silo")).expect("the silo");
    folder.refuses(folder.silo(&["loads", "-"]).stdin(input).stdout(open("w.silo")), words);
    // the messages would go there too
    folder.refuses(folder.silo(&["loads", "bad.silo"]).stderr(open("bad.silo")), "");
    let both = &mut folder.silo(&["loads", "w.silo"]);
    folder.refuses(both.stdout(open("w.silo")).stderr(open("w.silo")), "");
    // another file is written to
    folder.put("log", b"before\n");
    assert_eq!(ended(folder.silo(&["loads", "w.silo"]).stdout(open("log"))), (0, String::new()));
    assert!(folder.get("log").starts_with(b"before\nw.silo\n"));
}

/// A command, the ending of what it writes, what that is, in a word, and whether the tool replaces one.
const WRITTEN: [(&[&str], &str, &str, &str, bool); 18] = [
    (&["draw", "w.silo"], "svg", "a drawing", "drawing", true),
    (&["draw", "w.silo", "--kpa"], "svg", "a drawing", "drawing", true),
    (&["sheet", "w.silo"], "sheet", "a sheet", "sheet", true),
    (&["loads", "w.silo", "--csv"], "csv", "CSV of loads", "CSV", true),
    (&["loads", "w.silo", "--csv-semicolon"], "csv", "CSV of loads", "CSV", true),
    (&["loads", "w.silo", "--json"], "json", "JSON of loads", "JSON", true),
    (&["explain", "read.sheet"], "silo", "a silo's text", "text", false),
    (&["loads", "w.silo"], "txt", "a table of loads", "table", true),
    (&["loads", "w.silo", "--kpa"], "txt", "a table of loads", "table", true),
    (&["page", "w.silo"], "page", "a load page", "page", true),
    (&["page", "read.sheet"], "txt", "a load page", "page", true),
    (&["patch", "w.silo", "--depth", "8 m"], "txt", "a table of a patch", "table", true),
    (&["patch", "w.silo", "--depth", "0", "--all"], "txt", "a table of a patch", "table", true),
    (
        &["patch", "w.silo", "--depth", "8 m", "--csv-semicolon", "--kpa"],
        "csv",
        "CSV of a patch",
        "CSV",
        true,
    ),
    (&["draw", "w.silo", "--depth", "8 m"], "svg", "a drawing of a patch", "drawing", true),
    (&["catalogue"], "txt", "the catalogue", "catalogue", true),
    (&["catalogue", "--csv-semicolon"], "csv", "the catalogue's CSV", "CSV", true),
    (&["catalogue", "--json"], "json", "the catalogue's JSON", "JSON", true),
];

fn with_all_commands(name: &str) -> Folder {
    let folder = Folder::with_silo(name);
    folder.put("read.sheet", &printed(&["sheet", "samples/barley-bin.silo", "-o", "-"]));
    folder
}

#[test]
fn what_was_written_is_said_and_replaced_by_its_kind() {
    let folder = with_all_commands("replaced");
    for (command, ending, _, word, replaced) in WRITTEN {
        let file = format!("new.{ending}");
        let arguments = [command, &["-o", &file]].concat();
        let said = folder.writes(&arguments, &file);
        let bytes = folder.get(&file);
        let size = bytes.len().to_string();
        let size = match size.split_at(size.len().saturating_sub(3)) {
            ("", size) => size.to_string(),
            (thousands, rest) => format!("{thousands},{rest}"),
        };
        assert_eq!(said, format!("silo: {file}: {word} written, {size} bytes\n"));
        assert_eq!(bytes, output(&mut folder.silo(&[command, &["-o", "-"]].concat())).stdout);
        let again = said.replace("written", "replaced");
        if replaced {
            folder.put(&file, &of_the_last_run(&bytes, word));
            let copy = match word {
                "page" => format!("; the old one is {file}~\n"),
                _ => "\n".to_string(),
            };
            assert_eq!(folder.writes(&arguments, &file), again.replace('\n', &copy));
        } else {
            folder.refuses(&mut folder.silo(&arguments), "which may be written by hand");
            let forced = [&arguments[..], &["--force"]].concat();
            assert_eq!(folder.writes(&forced, &file), again);
        }
        assert_eq!(folder.get(&file), bytes);
        folder.put(&file, b"");
        assert_eq!(folder.writes(&arguments, &file), said, "an empty file loses nothing");
        fs::remove_file(folder.path(&file)).expect("the file");
    }
}

/// Another output of the same silo, as far as the tool can tell it: one line more, but not in a sheet, nor in a CSV, which would show it.
fn of_the_last_run(bytes: &[u8], word: &str) -> Vec<u8> {
    let line = if ["sheet", "CSV"].contains(&word) { &b""[..] } else { b"\n" };
    [bytes, line].concat()
}

const PAGE_HEADING: &[u8; 72] =
    b"        z      phf      pwf      pvf       PW      phe      pwe       pp";

/// What a file may hold, all of `w.silo`, and the words for it. Only the kind that is written is replaced.
fn contents(folder: &Folder) -> Vec<(&'static str, Vec<u8>)> {
    let of = |command: &str, more: &[&str]| folder.prints(&[&[command, "w.silo"], more].concat());
    let patch = |more: &[&str]| of("patch", &[&["--depth", "8 m"], more].concat());
    let other = "something other than ";
    vec![
        ("a drawing", of("draw", &["-o", "-"])),
        ("a sheet", of("sheet", &["-o", "-"])),
        ("a sheet", printed(&["sheet", "samples/cement.silo", "-o", "-"])),
        ("a sheet", shown(&["sheet", "samples/blank-friction.silo", "-o", "-"], 1)),
        ("CSV of loads", of("loads", &["--csv"])),
        ("CSV of loads", of("loads", &["--csv-semicolon", "--kpa"])),
        ("JSON of loads", of("loads", &["--json"])),
        ("the catalogue", printed(&["catalogue"])),
        ("the catalogue's CSV", printed(&["catalogue", "--csv"])),
        ("the catalogue's JSON", printed(&["catalogue", "--json"])),
        ("a table of loads", b"w.silo\n\n 1 2\n\nsilo 1.0.0, ENV 1991-4:1995\n\n".to_vec()),
        ("a load page", of("page", &[])),
        ("a load page", [&PAGE_HEADING[..], b"\r\nprinted for M. Dupont\r\n"].concat()),
        ("a table of a patch", patch(&[])),
        ("CSV of a patch", patch(&["--csv"])),
        ("JSON of a patch", patch(&["--json"])),
        ("a drawing of a patch", of("draw", &["--depth", "0", "-o", "-"])),
        ("a silo's text", sample("wheat-tower.silo")),
        ("a silo's text", b"# mine\r\nD_x = 1\r\n Diameter=4 m\r\n".to_vec()),
        (other, b"<svg><text>our mark</text></svg>".to_vec()),
        (other, b"{ \"name\": \"ours\" }".to_vec()),
        (other, b"{ \"products\": [\"bolts\"] }".to_vec()),
        (other, b"part,count\nbolt,400\n".to_vec()),
        (other, b"silo 1 is full\nring the miller\n".to_vec()),
        (other, b"\x04\0\x01\0 bytes of another program".to_vec()),
        (other, [b" ", &PAGE_HEADING[..], b"\n"].concat()),
        (other, b"z phf pwf pvf PW phe pwe pp\n".to_vec()),
        (other, b"REFUSED 7\n".to_vec()),
        (other, b"\n".to_vec()),
        (other, b"\x89PNG\r\n\x1a\n".to_vec()),
        (other, [b"<svg ENV 1991-4", &[b' '; 1 << 20][..]].concat()),
    ]
}

/// The silo that a file of `contents` names.
fn silo_in(found: &str) -> &str {
    match found {
        "a drawing" => " of w.silo",
        _ if found.ends_with(" of loads") || found.ends_with(" of a patch") => " of w.silo",
        _ => "",
    }
}

#[test]
fn what_is_of_another_kind_stays_unless_forced() {
    let folder = with_all_commands("kinds");
    for (command, ending, kind, _, _) in WRITTEN {
        let file = format!("old.{ending}");
        let arguments = [command, &["-o", &file]].concat();
        for (found, bytes) in contents(&folder) {
            folder.put(&file, &bytes);
            if found == kind && kind != "a silo's text" {
                folder.writes(&arguments, &file);
                continue;
            }
            let words = match found {
                "something other than " => format!("{file} holds {found}{kind} by silo; "),
                _ if found == kind => {
                    format!("{file} holds {found}, which may be written by hand; ")
                }
                _ => format!("{file} holds {found}{}, not {kind}; ", silo_in(found)),
            };
            let words = words + "choose another name, or --force replaces it\n";
            folder.refuses(&mut folder.silo(&arguments), &words);
            let said = folder.writes(&[&arguments[..], &["--force"]].concat(), &file);
            assert!(said.contains(" replaced, "), "{said}");
            assert_ne!(folder.get(&file), bytes);
        }
    }
}

#[test]
fn links_permissions_and_folders() {
    let folder = Folder::with_silo("links");
    let draw = |name: &str| folder.silo(&["draw", "w.silo", "-o", name]);
    fs::create_dir(folder.path("sub")).expect("a folder");
    folder.refuses(&mut draw("sub"), "sub: a folder; after -o a file's name is due");
    folder.refuses(&mut draw("none/"), "none/: a folder; ");
    folder.refuses(&mut draw("none/w.svg"), "not written: there is no folder none\n");
    folder.refuses(&mut draw("w.silo/w.svg"), "w.silo/w.svg: not written: ");
    symlink("gone.svg", folder.path("dangling.svg")).expect("a link");
    folder.refuses(
        &mut draw("dangling.svg"),
        "dangling.svg: a link to gone.svg, which does not exist; choose another name",
    );
    symlink("loop.svg", folder.path("loop.svg")).expect("a link");
    folder.refuses(&mut draw("loop.svg"), "loop.svg: not written: ");

    let drawing = folder.prints(&["draw", "w.silo", "--kpa", "-o", "-"]);
    folder.put("sub/real.svg", &drawing);
    fs::set_permissions(folder.path("sub/real.svg"), Permissions::from_mode(0o604)).expect("mode");
    symlink("sub/real.svg", folder.path("link.svg")).expect("a link");
    assert!(folder.writes(&["draw", "w.silo", "-o", "link.svg"], "link.svg").contains("replaced"));
    assert_eq!(
        fs::read_link(folder.path("link.svg")).expect("still a link"),
        Path::new("sub/real.svg")
    );
    assert_ne!(folder.get("sub/real.svg"), drawing);
    let mode = fs::metadata(folder.path("sub/real.svg")).expect("the file").permissions().mode();
    assert_eq!(mode & 0o777, 0o604);
    assert_eq!(folder.path("sub").read_dir().expect("sub").count(), 1);

    folder.put("kept.svg", &drawing);
    fs::set_permissions(folder.path("kept.svg"), Permissions::from_mode(0o444)).expect("mode");
    let words = "kept.svg: the file is write-protected";
    folder.refuses(&mut draw("kept.svg"), words);
    folder.refuses(draw("kept.svg").arg("--force"), words);
}

#[test]
fn an_ending_that_does_not_fit() {
    let folder = with_all_commands("endings");
    let cases: [(&[&str], &str, &str); 11] = [
        (&["draw", "w.silo"], "maize.pdf", "a drawing ends in .svg, such as maize.svg"),
        (&["draw", "w.silo"], "of/maize.v2.", "a drawing ends in .svg, such as of/maize.v2.svg"),
        (&["draw", "w.silo"], "maize.silo", "a drawing ends in .svg, such as maize.svg"),
        (&["sheet", "w.silo"], "w.svg", "a sheet ends in .sheet, such as w.sheet"),
        (&["loads", "w.silo"], "w.csv", "a table of loads ends in .txt, such as w.txt"),
        (&["page", "w.silo"], "w.pdf", "a load page ends in .page or .txt, such as w.page"),
        (&["page", "w.silo"], "w.silo2", "a load page ends in .page or .txt, such as w.page"),
        (&["loads", "w.silo", "--csv"], "w.txt", "CSV of loads ends in .csv, such as w.csv"),
        (&["loads", "w.silo", "--json"], "w.txt", "JSON of loads ends in .json, such as w.json"),
        (
            &["explain", "read.sheet"],
            "w.sheet",
            "a silo's text ends in .silo or .txt, such as w.silo",
        ),
        (&["catalogue"], "w.silo2", "the catalogue ends in .txt, such as w.txt"),
    ];
    for (command, name, words) in cases {
        let words = format!("{name}: the name of {words}\n");
        folder.refuses(folder.silo(command).args(["-o", name]), &words);
        folder.refuses(folder.silo(command).args(["--force", "-o", name]), &words);
    }
    for name in ["MAIZE.SVG", "maize.Svg", "maize", ".svg"] {
        folder.writes(&["draw", "w.silo", "-o", name], name);
    }
    for name in ["again.SILO", "again.txt"] {
        folder.writes(&["explain", "read.sheet", "-o", name], name);
    }
}

#[test]
fn a_full_disk_leaves_the_old_file() {
    let folder = Folder::with_silo("full");
    folder.put("old.svg", &folder.prints(&["draw", "w.silo", "--kpa", "-o", "-"]));
    let limited = |rest: &str| {
        bash(&folder, &format!("trap '' XFSZ; ulimit -f 1; exec $silo draw w.silo -o {rest}"))
    };
    let words = "not written: it is longer than a file may be here (";
    folder.refuses(&mut limited("old.svg"), words);
    folder.refuses(&mut limited("old.svg --force"), "; the old file is as it was\n");
    folder.refuses(&mut limited("new.svg"), words);
    let full = "the disk is full (No space left on device (os error 28))\n";
    let device = OpenOptions::new().write(true).open("/dev/full").expect("/dev/full");
    folder.refuses(
        folder.silo(&["loads", "w.silo"]).stdout(device),
        &format!("silo: standard output: not all is written: {full}"),
    );
    if let Some(device) = folder.device("full", 7) {
        let draw = &mut folder.silo(&["draw", "w.silo", "-o", &device]);
        assert_eq!(ended(draw), (2, format!("silo: {device}: not written: {full}")));
        let found = fs::metadata(folder.path(&device)).expect("the device");
        assert!(found.file_type().is_char_device());
    }
}

/// Nobody may write to /proc and /sys, the superuser neither.
#[test]
fn a_folder_that_may_not_be_written() {
    let folder = Folder::with_silo("unwritable");
    let mut tried = 0;
    for place in ["/proc", "/sys"].into_iter().filter(|place| Path::new(place).is_dir()) {
        let name = format!("{place}/w.svg");
        let (status, said) = ended(&mut folder.silo(&["draw", "w.silo", "-o", &name]));
        assert_eq!(status, 2);
        let read_only = format!("silo: {name}: not written: the disk may only be read (");
        let words = format!("silo: {name}: not written: you may not write to the folder {place} (");
        assert!(said.starts_with(&words) || said.starts_with(&read_only), "{said}");
        assert!(!Path::new(&name).exists());
        tried += 1;
    }
    assert!(tried > 0);
    fs::create_dir(folder.path("locked")).expect("a folder");
    folder.put("locked/old.svg", &folder.prints(&["draw", "w.silo", "--kpa", "-o", "-"]));
    let old = folder.get("locked/old.svg");
    let locked = |mode| fs::set_permissions(folder.path("locked"), Permissions::from_mode(mode));
    locked(0o555).expect("a mode");
    let free = File::create(folder.path("locked/tried")).is_ok();
    let (status, said) = ended(&mut folder.silo(&["draw", "w.silo", "-o", "locked/old.svg"]));
    locked(0o755).expect("a mode");
    if free {
        // the superuser, for whom the folder is not locked
        assert_eq!(status, 0);
        return;
    }
    assert_eq!(status, 2);
    assert!(said.contains("not written: you may not write to the folder "), "{said}");
    assert_eq!(folder.get("locked/old.svg"), old);
    assert_eq!(folder.path("locked").read_dir().expect("locked").count(), 1);
}

/// A process's number comes again, and with it the name of what a power cut has left.
#[test]
fn a_temporary_file_that_is_left_over() {
    let folder = Folder::with_silo("left-over");
    let script = "echo part >.silo-$$-0.new; exec $silo draw w.silo -o w.svg";
    let (status, said) = ended(&mut bash(&folder, script));
    assert_eq!((status, said.starts_with("silo: w.svg: drawing written, ")), (0, true), "{said}");
    let names: Vec<OsString> = folder.state().into_keys().collect();
    assert_eq!(names.len(), 3, "{names:?}");
    assert_eq!(folder.get(names[0].to_str().expect("UTF-8")), b"part\n");
}

/// CSV without the rows of the description, which name the file, and without the check row.
fn loads(csv: &[u8]) -> String {
    let csv = String::from_utf8(csv.to_vec()).expect("UTF-8");
    let of_loads = |line: &&str| !["silo,", "check,"].iter().any(|part| line.starts_with(part));
    csv.lines().filter(of_loads).map(|line| format!("{line}\n")).collect()
}

/// They are written to and read as they are.
#[test]
fn devices_and_pipes() {
    let folder = Folder::with_silo("pipes");
    let drawing = output(&mut folder.silo(&["draw", "w.silo", "-o", "-"])).stdout;
    if let Some(device) = folder.device("null", 3) {
        let (status, said) = ended(&mut folder.silo(&["draw", "w.silo", "-o", &device]));
        assert_eq!((status, said.contains(": drawing written, ")), (0, true), "{said}");
        let found = fs::metadata(folder.path(&device)).expect("the device");
        assert!(found.file_type().is_char_device());
    }
    let nothing = Vec::new();
    let loads = loads(&output(&mut folder.silo(&["loads", "w.silo", "--csv"])).stdout).into_bytes();
    for (script, printed) in [
        ("mkfifo out; cat out & $silo draw w.silo -o out; test -p out && wait", &drawing),
        ("mkfifo in; cat w.silo >in & $silo loads in --csv | grep -v -e ^silo, -e ^check,", &loads),
        ("$silo loads <(cat w.silo) --csv | grep -v -e ^silo, -e ^check,", &loads),
        ("cat w.silo | $silo loads /dev/stdin --csv | grep -v -e ^silo, -e ^check,", &loads),
        // a reader that goes away is no error
        ("mkfifo gone; (exec 3<gone) & $silo draw w.silo -o gone", &nothing),
        ("$silo loads w.silo | true; exit ${PIPESTATUS[0]}", &nothing),
    ] {
        let Output { status, stdout, stderr } = output(&mut bash(&folder, script));
        let said = String::from_utf8_lossy(&stderr);
        assert_eq!(status.code(), Some(0), "{script}: {said}");
        assert!(stdout == *printed, "{script}: {said}");
    }
}

#[test]
fn names_that_start_with_a_dash() {
    let folder = Folder::with_silo("dashes");
    folder.put("-1.silo", &sample("wheat-tower.silo"));
    folder.put("--csv", &sample("wheat-tower.silo"));
    folder.refuses(
        &mut folder.silo(&["loads", "-1.silo"]),
        "; -- stands before a file whose name starts with -\n",
    );
    let expected = loads(&output(&mut folder.silo(&["loads", "w.silo", "--csv"])).stdout);
    for name in ["-1.silo", "--csv"] {
        let output = output(&mut folder.silo(&["loads", "--csv", "--", name]));
        assert_eq!((output.status.code(), loads(&output.stdout)), (Some(0), expected.clone()));
    }
    let words = "-o: a file is due after it, not --force; a file of that name is ./--force\n";
    folder.refuses(&mut folder.silo(&["draw", "w.silo", "-o", "--force"]), words);
    folder.writes(&["draw", "-o", "./--force", "--", "--csv"], "--force");
}

/// Other programs may want to see what is refused.
#[test]
fn a_refused_silo_has_a_sheet_alone() {
    let folder = Folder::new("refused");
    folder.put("blank.silo", &sample("blank-friction.silo"));
    for arguments in
        [&["draw", "blank.silo", "-o", "b.svg"], &["loads", "blank.silo", "-o", "b.txt"]]
    {
        assert_eq!(ended(&mut folder.silo(arguments)).0, 1);
        assert_eq!(folder.state().len(), 1);
    }
    let (status, said) = ended(&mut folder.silo(&["sheet", "blank.silo", "-o", "b.sheet"]));
    let words =
        "the sheet has the numbers as the text has them\nsilo: b.sheet: sheet written, 126 bytes\n";
    assert_eq!((status, said.ends_with(words)), (1, true), "{said}");
    assert_eq!(folder.get("b.sheet").len(), 126);
    folder.put("long.silo", &sample("long-store.silo"));
    let (status, said) = ended(&mut folder.silo(&["sheet", "long.silo", "-o", "l.sheet"]));
    let words = "each with a sheet of its own\nsilo: l.sheet: sheet written, 102 bytes\n";
    assert_eq!((status, said.ends_with(words)), (0, true), "{said}");
    assert!(said.starts_with("note: loads, page and drawing of this silo are refused:\n"));
}

/// What stands in a page's place is printed, even where a file is named.
#[test]
fn a_refused_silo_has_no_page() {
    let folder = Folder::new("pages");
    folder.put("blank.silo", &sample("blank-friction.silo"));
    folder.put("long.silo", &sample("long-store.silo"));
    folder.put("bad.silo", b"diameter = 5 furlongs\n");
    folder.put("old.page", &sample("cement.page"));
    let before = folder.state();
    for (file, status, printed, words) in [
        ("blank.silo", 1, "REFUSED 7\n", "blank.silo: refused, 7: the product is outside"),
        ("long.silo", 1, "REFUSED 20\n", "long.silo: refused, 20: the sides are too unequal"),
        ("bad.silo", 2, "", "bad.silo:1: diameter = 5 furlongs: unknown unit"),
        ("none.silo", 2, "", "silo: none.silo: there is no such file\n"),
    ] {
        for more in [&[][..], &["-o", "old.page"], &["-o", "new.page"], &["-o", "new.txt"]] {
            let ended = output(folder.silo(&["page", file]).args(more));
            assert_eq!(ended.status.code(), Some(status));
            assert_eq!(String::from_utf8_lossy(&ended.stdout), printed);
            let said = String::from_utf8_lossy(&ended.stderr);
            assert!(said.starts_with(words), "{said}");
            assert!(before == folder.state());
        }
    }
}

/// JSON says why there are no loads, on standard output even where a file is named.
#[test]
fn json_of_what_gives_no_loads() {
    let folder = Folder::with_silo("json");
    folder.put("blank.silo", &sample("blank-friction.silo"));
    fs::create_dir(folder.path("sub")).expect("a folder");
    folder.put("long.silo", &[b'#'; (1 << 20) + 1]);
    let json = String::from_utf8(folder.prints(&["loads", "w.silo", "--json"])).expect("UTF-8");
    for (file, status, refusal, message) in [
        ("none.silo", 2, "null", "there is no such file"),
        ("sub", 2, "null", "a folder, where a file is due"),
        ("long.silo", 2, "null", "over 1 MiB, longer than any silo's text or sheet"),
        ("blank.silo", 1, "7", "friction = 0.00: wall friction is missing or 0"),
    ] {
        folder.put("old.json", json.replace("w.silo", file).as_bytes());
        let before = folder.state();
        let stays = format!("silo: old.json stays as it was: JSON of loads of {file}\n");
        for (more, said) in
            [(&[][..], ""), (&["-o", "old.json"], &stays), (&["-o", "new.json"], "")]
        {
            let ended = output(folder.silo(&["loads", "--json", file]).args(more));
            assert_eq!(ended.status.code(), Some(status));
            let object = String::from_utf8(ended.stdout).expect("UTF-8");
            assert!(object.starts_with(&format!("{{\n  \"refusal\": {refusal},\n")), "{object}");
            assert!(object.contains(&format!("\"message\": \"{message}")), "{object}");
            assert_eq!(String::from_utf8_lossy(&ended.stderr), said);
            assert!(before == folder.state());
        }
    }
}
