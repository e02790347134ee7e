//! `silo check`: its stored outputs, for a person and for a program, and fixes of refusals that mend them.

mod common;

use common::{sample, stored, text_with};
use silo::commands::{self, Format};
use silo::text;

/// Files that are accepted, refused and unreadable.
fn files() -> Vec<(&'static str, Vec<u8>)> {
    let texts = [
        ("comma.silo", text_with(&[("diameter", "5,0 m  # inside"), ("hight", "2 m")])),
        (
            "slips.silo",
            text_with(&[("strakes", "5 x 2000"), ("depths", "-"), ("sides", "4 x 5 m")]),
        ),
        ("refused.silo", text_with(&[("diameter", "5 mm # inside"), ("friction", "24")])),
        ("strakes.silo", text_with(&[("strakes", "4 x 2000, 2 x 2 mm  # top first")])),
    ];
    let sheet = text::read(&text_with(&[("headroom", "10 m")])).expect("a text");
    let cement = String::from_utf8(sample("cement.silo")).expect("UTF-8");
    let cement = text::read(&cement).expect("a text").description.to_bytes();
    let names = ["corrugated-bin.silo", "blank-factor.silo", "flat-store.silo", "long-store.silo"];
    let samples = names.map(|name| (name, sample(name)));
    let texts = texts.map(|(name, text)| (name, text.into_bytes()));
    let bytes = [
        ("cement.sheet", cement.clone()),
        ("headroom.sheet", sheet.description.to_bytes()),
        ("cut.sheet", cement[..20].to_vec()),
        ("tower.pdf", b"%PDF-1.4\n\x01".to_vec()),
    ];
    samples.into_iter().chain(texts).chain(bytes).collect()
}

#[test]
fn checks_as_stored() {
    let mut page = String::new();
    for (name, bytes) in files() {
        for format in [Format::Table, Format::Json] {
            let outcome = commands::check(name, &bytes, format);
            let loads = commands::loads(name, &bytes, Format::Table, silo::units::Units::Whole);
            assert_eq!((outcome.status, outcome.messages.as_str()), (loads.status, ""), "{name}");
            let said = String::from_utf8(outcome.output).expect("UTF-8");
            page += &format!("== {name}: {}\n{said}\n", outcome.status);
        }
    }
    stored("host/tests/golden/check.txt", page.as_bytes());
}

/// What stands between two words on a line of JSON.
fn between<'a>(line: &'a str, before: &str, after: &str) -> Option<&'a str> {
    line.split_once(before)?.1.split_once(after).map(|(found, _)| found)
}

/// A refused text with one line mended is not refused for that line any more.
#[test]
fn fixes_of_refusals() {
    let changes: [&[(&str, &str)]; 8] = [
        &[("diameter", "5 mm")],
        &[("diameter", "-"), ("sides", "4 x 6000 mm")],
        &[("diameter", "-"), ("sides", "5 x 6000 m")],
        &[("friction", "24")],
        &[("weight", "9 N/m3   # measured")],
        &[("strakes", "5 x 2 mm")],
        &[("strakes", "7.5 m")],
        &[("headroom", "300 m")],
    ];
    for changes in changes {
        let text = text_with(changes);
        let said = commands::check("t.silo", text.as_bytes(), Format::Json);
        assert_eq!(said.status, 1);
        let said = String::from_utf8(said.output).expect("UTF-8");
        let message = said.lines().find(|line| line.contains("\"fixes\": [\"")).expect(&said);
        let line: usize =
            between(message, "\"line\": ", ",").expect(message).parse().expect("a line");
        let words = between(message, "\"words\": \"", "\"}").expect(message);
        for fix in between(message, "\"fixes\": [\"", "\"]").expect(message).split("\", \"") {
            let mut lines: Vec<&str> = text.lines().collect();
            lines[line - 1] = fix;
            let mended = commands::check("t.silo", lines.join("\n").as_bytes(), Format::Table);
            let said = String::from_utf8(mended.output).expect("UTF-8");
            assert!(mended.status < 2 && !said.contains(words), "{fix}: {said}");
            assert_eq!(fix.contains('#'), text.contains('#'), "{fix}");
        }
    }
}
