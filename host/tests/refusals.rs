//! Every refusal, from text and from bytes, against `golden/refusals.txt`; every number is the library's, and stands on the load page.

mod common;

use common::{sample, stored, text_with, FLAT};
use silo::commands::{self, Format};
use silo::library::{self, Refusal};
use silo::text;
use silo::units::Units;

type Changes = &'static [(&'static str, &'static str)];

/// Ten times as wide is less than the wall of 10 m.
const NARROW: (&str, &str) = ("diameter", "900 mm");
/// A wall of 4.8 m.
const SHORT: Changes = &[("strakes", "4 x 1200 mm"), ("depths", "every 1200 mm")];
const TOO_SLENDER_WITH_HEADROOM: Changes =
    &[NARROW, FLAT[0], FLAT[1], FLAT[2], ("headroom", "1 m")];

/// Texts that are refused: the number, what is wrong, and the lines that differ from an accepted silo.
const TEXTS: &[(u32, &str, Changes)] = &[
    (1, "far too many depths", &[("depths", "every 20 mm")]),
    (4, "too many depths", &[("depths", "every 45 mm")]),
    (4, "too many strakes", &[("strakes", "25 x 1000 mm")]),
    (6, "metres taken for millimetres", &[("diameter", "5 mm")]),
    (6, "millimetres taken for metres", &[("diameter", "5000 m")]),
    (6, "a diameter of 0", &[("diameter", "0")]),
    (6, "sides too short and too long", &[("diameter", "-"), ("sides", "499 x 50001 mm")]),
    (6, "sides too unequal, and one too short", &[("diameter", "-"), ("sides", "499 x 5000 mm")]),
    (20, "sides too unequal", &[("diameter", "-"), ("sides", "5 x 18 m")]),
    (20, "side a too long by 1 mm", &[("diameter", "-"), ("sides", "15001 x 5000 mm")]),
    (20, "side b too long by 1 mm", &[("diameter", "-"), ("sides", "5000 x 15001 mm")]),
    (
        20,
        "the most unequal sides",
        &[
            ("diameter", "-"),
            ("sides", "50 x 0.5 m"),
            FLAT[0],
            FLAT[1],
            FLAT[2],
            SHORT[0],
            SHORT[1],
        ],
    ),
    (
        20,
        "sides too unequal before everything else",
        &[
            ("diameter", "-"),
            ("sides", "1 x 10 m"),
            ("friction", ""),
            ("outlet eccentricity", "251 mm"),
            ("hopper run", "500 mm"),
            ("strakes", "10 x 200, 199 mm"),
            ("depths", "0, 0 mm"),
        ],
    ),
    (
        20,
        "sides too unequal before the depths, the headroom and h",
        &[("diameter", "-"), ("sides", "4 x 1 m"), ("depths", "10001 mm"), ("headroom", "10 m")],
    ),
    (
        20,
        "sides too unequal, and too slender",
        &[("diameter", "-"), ("sides", "4 x 1 m"), FLAT[0], FLAT[1], FLAT[2]],
    ),
    (7, "blank friction", &[("friction", "")]),
    (7, "friction of 0", &[("friction", "0")]),
    (7, "friction in hundredths", &[("friction", "40")]),
    (7, "friction as an angle", &[("friction", "24")]),
    (7, "friction just too small", &[("friction", "0.09")]),
    (7, "ratio and factor", &[("ratio", "1.01"), ("factor", "0.99")]),
    (7, "weight in the wrong unit", &[("weight", "9 N/m3")]),
    (7, "weight in the other wrong unit", &[("weight", "9000 kN/m3")]),
    (7, "all four blank", &[("weight", ""), ("ratio", ""), ("friction", ""), ("factor", "")]),
    (8, "filling eccentricity", &[("filling eccentricity", "1251 mm")]),
    (
        8,
        "both eccentricities",
        &[
            ("e_i", "2 m"),
            ("e_o", "3 m"),
            ("filling eccentricity", "-"),
            ("outlet eccentricity", "-"),
        ],
    ),
    (
        8,
        "eccentricity over a quarter of the shorter side",
        &[("diameter", "-"), ("sides", "4 x 6 m"), ("outlet eccentricity", "1.2 m")],
    ),
    (9, "hopper without a run", &[("hopper run", "0 mm")]),
    (9, "hopper without an outlet", &[("hopper run", "2500 mm"), ("hopper height", "3000 mm")]),
    (9, "hopper too high", &[("hopper height", "25001 mm")]),
    (9, "hopper too flat", &[("hopper run", "1000 mm"), ("hopper height", "363 mm")]),
    (9, "hopper without a height", &[("hopper height", "0")]),
    (10, "a low strake", &[("strakes", "4 x 2000, 199 mm")]),
    (10, "strakes in the wrong unit", &[("strakes", "5 x 2 mm")]),
    (
        10,
        "strakes in mm for m, with a step",
        &[("strakes", "5 x 2 mm"), ("depths", "every 500 mm")],
    ),
    (4, "too many and too high", &[("strakes", "30 x 5000 mm")]),
    (10, "a wall in one piece", &[("strakes", "7.5 m")]),
    (10, "a wall in one piece that no strakes make up", &[("strakes", "5003 mm")]),
    (10, "strakes too high", &[("strakes", "2 x 3001, 1000, 4 x 3500 mm")]),
    (11, "a depth below the foot", &[("depths", "0, 5000, 10001 mm")]),
    (11, "depths that fall", &[("depths", "0, 5000, 4000, 6000 mm")]),
    (11, "a depth twice", &[("depths", "0, 5000, 5000 mm")]),
    (12, "too slender", &[("diameter", "1150 mm"), ("hopper run", "500 mm")]),
    (
        12,
        "just too slender",
        &[("diameter", "1000 mm"), ("hopper run", "-"), ("hopper height", "-"), ("floor", "flat")],
    ),
    (12, "too slender from the grain's surface down", TOO_SLENDER_WITH_HEADROOM),
    (17, "headroom of the wall's height", &[("headroom", "10 m")]),
    (17, "headroom below the wall's foot", &[("headroom", "10001 mm")]),
    (17, "headroom in metres for millimetres", &[("headroom", "300 m")]),
    (17, "headroom over any wall", &[("headroom", "4000001 mm")]),
    (17, "headroom of the highest wall", &[("strakes", "24 x 3 m"), ("g", "72 m")]),
    (
        17,
        "headroom before a shape that needs some",
        &[NARROW, FLAT[0], FLAT[1], FLAT[2], ("headroom", "10 m")],
    ),
    (
        17,
        "headroom before a shape that no headroom mends",
        &[
            ("diameter", "500 mm"),
            ("hopper height", "5 m"),
            ("hopper run", "249 mm"),
            ("headroom", "10 m"),
        ],
    ),
    (11, "a depth before the headroom", &[("depths", "10001 mm"), ("headroom", "10 m")]),
    (10, "strakes before the headroom", &[("strakes", "5 x 20 mm"), ("headroom", "300 mm")]),
    (
        7,
        "every limit at once",
        &[
            ("weight", "9 N/m3"),
            ("ratio", "55"),
            ("friction", ""),
            ("filling eccentricity", "2 m"),
            ("outlet eccentricity", "1300 mm"),
            ("hopper run", "2.6 m"),
            ("hopper height", "26 m"),
            ("strakes", "100, 5000, 2 x 2000 mm"),
            ("depths", "0, 500, 400 mm"),
        ],
    ),
    (
        4,
        "more than twenty places",
        &[
            ("weight", ""),
            ("ratio", ""),
            ("friction", ""),
            ("factor", "3"),
            ("filling eccentricity", "2 m"),
            ("outlet eccentricity", "2 m"),
            ("hopper run", "70 m"),
            ("hopper height", "25.1 m"),
            ("strakes", "3100, 3200, 3300, 3400, 3500, 3600, 20 x 3700 mm"),
            ("depths", "201 x 5 mm"),
        ],
    ),
    (
        9,
        "a flat hopper by its outlet",
        &[("hopper run", "-"), ("outlet width", "1000 mm"), ("hopper height", "700 mm")],
    ),
    (
        7,
        "an own friction with a product's name",
        &[
            ("weight", "-"),
            ("ratio", "-"),
            ("factor", "-"),
            ("product", "wheat"),
            ("wall", "corrugated"),
            ("friction", "0.05"),
        ],
    ),
    (6, "the first refusal counts", &[("diameter", "1 mm"), ("friction", ""), ("depths", "99 m")]),
    (
        10,
        "a catalogue product",
        &[
            ("weight", "-"),
            ("ratio", "-"),
            ("friction", "-"),
            ("factor", "-"),
            ("product", "maize"),
            ("wall", "concrete"),
            ("strakes", "5 x 20 cm, 19 cm"),
        ],
    ),
];

fn refused(page: &mut String, number: u32, title: &str, file: &str, bytes: &[u8]) {
    let outcome = commands::loads(file, bytes, Format::Table, Units::Whole);
    assert_eq!(outcome.status, 1, "{title}");
    assert!(
        outcome.messages.contains(&format!("refused, {number}:")),
        "{title}: {}",
        outcome.messages
    );
    let printed = commands::page(file, bytes);
    assert_eq!((printed.status, &printed.messages), (1, &outcome.messages), "{title}");
    assert_eq!(printed.output, format!("REFUSED {number}\n").into_bytes(), "{title}");
    *page += &format!("== {number}: {title}\n{}\n", outcome.messages);
}

/// The sheet of the accepted silo: records at bytes 0, 8, 22, 34, 46 and 60.
fn sheet() -> Vec<u8> {
    let sheet = text::read(&text_with(&[])).expect("the text").description.to_bytes();
    assert_eq!(sheet.len(), 72);
    sheet
}

fn changed(at: usize, byte: u8) -> Vec<u8> {
    let mut sheet = sheet();
    sheet[at] = byte;
    sheet
}

/// The sheet with a seventh record of that payload length and kind, and so many bytes of 0 behind the header.
fn with_seventh(length: u16, kind: u16, bytes: usize) -> Vec<u8> {
    let [length, kind] = [length, kind].map(u16::to_le_bytes);
    [&sheet()[..], &length, &kind, &vec![0; bytes]].concat()
}

fn with_headroom(headroom: u32) -> Vec<u8> {
    [&with_seventh(4, 8, 0)[..], &headroom.to_le_bytes()].concat()
}

/// Sheets of bytes that are refused: the number, what is wrong, and the bytes.
fn sheets() -> Vec<(u32, &'static str, Vec<u8>)> {
    let longer = |more: usize| [sheet(), vec![0; more]].concat();
    let cut = |length: usize| sheet()[..length].to_vec();
    vec![
        (1, "over 1,024 bytes", longer(1024 - 72 + 1)),
        (2, "empty", Vec::new()),
        (2, "header cut short", cut(10)),
        (2, "payload cut short", cut(71)),
        (2, "records missing", cut(46)),
        (3, "first kind", changed(2, 9)),
        (3, "kind out of order", changed(10, 4)),
        (4, "product of 9 bytes", changed(8, 9)),
        (4, "no strakes", changed(46, 0)),
        (4, "half a depth", changed(60, 6)),
        (2, "one byte behind the sixth record", longer(1)),
        (2, "half a header of the headroom", longer(3)),
        (2, "headroom without its payload", with_seventh(4, 8, 0)),
        (2, "headroom cut short", with_seventh(4, 8, 3)),
        (3, "zeros behind the sixth record", longer(4)),
        (3, "kind of the headroom", with_seventh(4, 9, 4)),
        (3, "kind of the headroom before its length", with_seventh(5, 7, 5)),
        (4, "headroom of 8 bytes", with_seventh(8, 8, 8)),
        (4, "headroom of no bytes", with_seventh(0, 8, 0)),
        (4, "length of the headroom before its payload", with_seventh(3, 8, 2)),
        (5, "bytes left over", with_seventh(4, 8, 7)),
        (6, "diameter", changed(6, 1)),
        (7, "friction", changed(18, 9)),
        (8, "outlet eccentricity", changed(31, 8)),
        (9, "hopper height", changed(40, 1)),
        (10, "third strake", changed(55, 20)),
        (11, "second depth", changed(70, 1)),
        (17, "headroom", with_headroom(10_000)),
    ]
}

#[test]
fn every_refusal_of_a_sheet() {
    let mut page = String::new();
    for (number, title, changes) in TEXTS {
        refused(&mut page, *number, title, "tower.silo", text_with(changes).as_bytes());
    }
    for (number, title, bytes) in sheets() {
        refused(&mut page, number, title, "tower.sheet", &bytes);
    }
    for number in (1..=12).chain([17, 20]) {
        assert!(page.contains(&format!("refused, {number}:")), "refusal {number} is not tried");
    }
    stored("host/tests/golden/refusals.txt", page.as_bytes());
}

/// A headroom just under the wall's height is accepted, and so is a seventh record that says there is none.
#[test]
fn headrooms_that_are_accepted() {
    for headroom in [0, 1, 9999] {
        assert!(library::answers_length(&with_headroom(headroom)).is_ok(), "{headroom}");
    }
    for mended in ["1001 mm", "9999 mm"] {
        let text = text_with(&[&TOO_SLENDER_WITH_HEADROOM[..4], &[("headroom", mended)]].concat());
        let outcome = commands::loads("tower.silo", text.as_bytes(), Format::Table, Units::Whole);
        assert_eq!(outcome.status, 0, "{}", outcome.messages);
    }
}

/// Sides of exactly three times are accepted, either one first, and 1 mm more is refused, or 1 mm less of the shorter.
#[test]
fn sides_that_are_accepted() {
    let loads = |a: u32, b: u32| {
        let sides = format!("{a} x {b} mm");
        let text = text_with(&[&FLAT[..], SHORT, &[("diameter", "-"), ("sides", &sides)]].concat());
        commands::loads("bin.silo", text.as_bytes(), Format::Table, Units::Whole)
    };
    for shorter in [500, 501, 5000, 16_665, 16_666] {
        let longer = 3 * shorter;
        for (a, b, status) in
            [(longer, shorter, 0), (longer + 1, shorter, 1), (longer, shorter - 1, 1)]
        {
            let outcomes = [loads(a, b), loads(b, a)];
            assert!(
                outcomes.iter().all(|outcome| outcome.status == status),
                "{a}, {b}: {outcomes:?}"
            );
        }
    }
    assert_eq!(
        [loads(50_000, 16_667), loads(50_000, 16_666)].map(|outcome| outcome.status),
        [0, 1]
    );
    assert_eq!([loads(500, 500), loads(50_000, 50_000)].map(|outcome| outcome.status), [0, 0]);
}

/// 14 to 16 and 18 are faults of a host program, which this one does not make.
#[test]
fn refusals_of_a_host() {
    let sheet = sheet();
    let due = library::answers_length(&sheet).expect("accepted");
    for length in [0, due - 1, due + 1] {
        let mut answers = vec![7; length];
        assert_eq!(library::fill_loads(&sheet, &mut answers), Err(Refusal::LIST_LENGTH));
        assert!(answers.iter().all(|answer| *answer == 7));
    }
    let due = library::page_length(&sheet).expect("accepted");
    for length in [0, 1, due - 1] {
        let mut page = vec![7; length];
        assert_eq!(library::fill_page(&sheet, &mut page), Err(Refusal::PAGE_LENGTH));
        assert!(page.iter().all(|byte| *byte == 7));
    }
    let mut record = [7; 15];
    for (row, wall) in [(10, 0), (0, 2), (u32::MAX, u32::MAX)] {
        assert_eq!(library::fill_record(row, wall, &mut record[..14]), Err(Refusal::NO_SUCH_ROW));
    }
    assert_eq!(library::fill_record(9, 1, &mut record), Err(Refusal::RECORD_LENGTH));
    assert_eq!(record, [7; 15]);
}

/// Of a refused sheet nothing is written, however long the buffer is, and 18 is not answered.
#[test]
fn a_page_is_refused_for_its_sheet_first() {
    for (number, title, bytes) in sheets() {
        assert_eq!(library::page_length(&bytes), Err(Refusal(number)), "{title}");
        for length in [0, 1, 5000] {
            let mut page = vec![7; length];
            assert_eq!(library::fill_page(&bytes, &mut page), Err(Refusal(number)), "{title}");
            assert!(page.iter().all(|byte| *byte == 7));
        }
    }
}

#[test]
fn every_refusal_has_words() {
    let words: String =
        (0..=21).map(|number| format!("{number}: {}\n", Refusal(number).meaning())).collect();
    stored("host/tests/golden/meanings.txt", words.as_bytes());
}

#[test]
fn a_refusal_in_json() {
    let blank = sample("blank-friction.silo");
    let outcome = commands::loads("blank-friction.silo", &blank, Format::Json, Units::Whole);
    assert_eq!((outcome.status, outcome.messages.as_str()), (1, ""));
    stored("host/tests/golden/refusal.json", &outcome.output);
    let long = text_with(&[("diameter", "-"), ("sides", "5 x 18 m"), ("friction", "")]);
    let outcome = commands::loads("long.silo", long.as_bytes(), Format::Json, Units::Whole);
    assert_eq!((outcome.status, outcome.messages.as_str()), (1, ""));
    stored("host/tests/golden/unequal-sides.json", &outcome.output);
    let many = text_with(&[("diameter", "5 mm"), ("friction", ""), ("depths", "6, 5 mm")]);
    let outcome = commands::loads("many.silo", many.as_bytes(), Format::Json, Units::Whole);
    assert_eq!((outcome.status, outcome.messages.as_str()), (1, ""));
    stored("host/tests/golden/refusals.json", &outcome.output);
}

#[test]
fn an_unreadable_text_in_json() {
    let text = text_with(&[("diameter", "5,0 m"), ("hight", "2"), ("strakes", "-")]);
    let outcome = commands::loads("bad.silo", text.as_bytes(), Format::Json, Units::Whole);
    assert_eq!((outcome.status, outcome.messages.as_str()), (2, ""));
    stored("host/tests/golden/unreadable.json", &outcome.output);
}

/// Files of other programs, which are neither a text nor a sheet.
#[test]
fn files_of_other_programs() {
    let files: [(&str, &[u8]); 9] = [
        ("tower.docx", b"PK\x03\x04\x14\0\x06\0word/document.xml"),
        ("tower.xlsx", b"PK\x03\x04\x14\0\x06\0xl/workbook.xml"),
        ("tower.odt", b"PK\x03\x04\x14\0\0\0mimetypeapplication/vnd.oasis.opendocument.text"),
        ("tower.zip", b"PK\x03\x04\x14\0\0\0tower.silo"),
        ("tower.doc", b"\xd0\xcf\x11\xe0\xa1\xb1\x1a\xe1"),
        ("tower.pdf", b"%PDF-1.4\n\x01"),
        ("tower.rtf", b"{\\rtf1\\ansi diameter = 5000 mm}"),
        ("tower.svg", b"<svg xmlns=\"http://www.w3.org/2000/svg\"/>"),
        ("tower.json", b"{\n  \"refusal\": 7\n}\n"),
    ];
    let mut page = String::new();
    for (name, bytes) in files {
        let commands = [
            commands::loads(name, bytes, Format::Table, Units::Whole),
            commands::page(name, bytes),
            commands::sheet(name, bytes),
            commands::explain(name, bytes),
            commands::draw(name, bytes, Units::Whole),
        ];
        for outcome in &commands {
            assert_eq!((outcome.status, outcome.output.len()), (2, 0), "{name}");
            assert_eq!(outcome.messages, commands[0].messages);
        }
        page += &commands[0].messages;
    }
    stored("host/tests/golden/foreign.txt", page.as_bytes());
}

#[test]
fn at_most_twenty_messages() {
    let text: String = (0..30).map(|i| format!("unknown{i} = {i}\n")).collect();
    let outcome = commands::loads("many.silo", text.as_bytes(), Format::Table, Units::Whole);
    let lines: Vec<&str> = outcome.messages.lines().collect();
    assert_eq!(lines.len(), 21);
    assert_eq!(lines[20], "many.silo: 17 more");
}
