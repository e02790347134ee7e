//! Rectangles over three times as long as wide: told their lengths, written as sheets and explained, but not calculated.

mod common;

use common::{sample, text_with};
use silo::commands::{self, Format, Outcome};
use silo::description::Description;
use silo::library::{self, Loads, Refusal};
use silo::text;
use silo::units::Units;

const LONG: [(&str, &str); 2] = [("diameter", "-"), ("sides", "5 x 18 m")];
const BLANK: (&str, &str) = ("friction", "");
/// How the words of the refusal start, after the file's name.
const REFUSED: &str =
    ": refused, 20: the sides are too unequal: the longer is over three times the shorter; ";
const NOTE: &str = "note: loads, page and drawing of this silo are refused:\n";
const SIDES: &str = "sides: the longer, 18000 mm, is over three times the shorter, 5000 mm; shorten it to at most 15000 mm, widen the \
                     shorter to at least 6000 mm, or divide it by cross walls into 2 equal bins of at most 9000 mm by 5000 mm, each \
                     with a sheet of its own\n";

fn described(changes: &[(&str, &str)]) -> Description {
    text::read(&text_with(changes)).expect("a text").description
}

/// Both lengths are those of the same silo with sides that are accepted, and each call refuses the sheet whatever it is lent.
#[test]
fn a_length_is_told_but_nothing_is_filled() {
    let [long, accepted] =
        [LONG, [LONG[0], ("sides", "5 x 15 m")]].map(|sides| described(&sides).to_bytes());
    let lengths = |sheet: &[u8]| [library::answers_length(sheet), library::page_length(sheet)];
    let [list, page] = lengths(&accepted).map(|length| length.expect("an accepted silo"));
    assert_eq!(lengths(&long), [Ok(list), Ok(page)]);
    for length in [0, list - 1, list, list + 1, page - 1, page, page + 1] {
        let (mut answers, mut page, mut reply) =
            (vec![7; length], vec![7; length], vec![7; length]);
        let refused = [
            library::fill_loads(&long, &mut answers),
            library::fill_page(&long, &mut page),
            library::fill_shell_patch(&long, 0, &mut reply),
        ];
        assert_eq!(refused, [Err(Refusal::UNEQUAL_SIDES); 3]);
        assert!(
            answers.iter().all(|n| *n == 7)
                && page.iter().all(|n| *n == 7)
                && reply.iter().all(|n| *n == 7)
        );
    }
    assert_eq!(library::verdict(&accepted), Ok(()));
}

/// The refusal is that of the call which fills, also where a length is refused for another rule.
#[test]
fn the_call_itself_is_asked_for_its_refusal() {
    for (changes, of_length) in [
        (BLANK, Refusal::PRODUCT),
        (("outlet eccentricity", "1251 mm"), Refusal::ECCENTRICITY),
        (("hopper run", "2500 mm"), Refusal::BOTTOM),
        (("strakes", "5 x 100 mm"), Refusal::STRAKE),
        (("depths", "10001 mm"), Refusal::DEPTH),
        (("headroom", "10 m"), Refusal::HEADROOM),
    ] {
        let silo = described(&[LONG[0], LONG[1], changes]);
        let sheet = silo.to_bytes();
        assert_eq!(library::answers_length(&sheet), Err(of_length));
        assert_eq!(library::page_length(&sheet), Err(of_length));
        let loads = Loads::of(&sheet, silo.strakes.len()).map(|_| ());
        let page = library::page(&sheet).map(|_| ());
        assert_eq!([loads, page, library::verdict(&sheet)], [Err(Refusal::UNEQUAL_SIDES); 3]);
    }
}

fn said(outcome: &Outcome, status: u8) -> &str {
    assert_eq!(outcome.status, status, "{}", outcome.messages);
    &outcome.messages
}

/// The sheet of the text and the text of the sheet are written, with a note beside them.
#[test]
fn a_sheet_is_written_and_explained_with_a_note() {
    let written = commands::sheet("long.silo", text_with(&LONG).as_bytes());
    let note = said(&written, 0);
    assert!(note.starts_with(&format!("{NOTE}long.silo{REFUSED}")), "{note}");
    assert!(note.ends_with(&format!("\nlong.silo:11: {SIDES}")), "{note}");
    assert_eq!(written.output, described(&LONG).to_bytes());
    let explained = commands::explain("long.sheet", &written.output);
    let note = said(&explained, 0);
    assert!(note.starts_with(&format!("{NOTE}long.sheet{REFUSED}")), "{note}");
    assert!(note.ends_with(&format!("byte 4, record 1 (circle or rectangle): {SIDES}")), "{note}");
    let text = String::from_utf8(explained.output).expect("UTF-8");
    assert!(text.starts_with("sides = 5000 x 18000 mm\n"), "{text}");
    assert_eq!(commands::sheet("again.silo", text.as_bytes()).output, written.output);
    for sides in ["5 x 15 m", "15 x 5 m"] {
        let text = text_with(&[LONG[0], ("sides", sides)]);
        let written = commands::sheet("bin.silo", text.as_bytes());
        assert_eq!(said(&written, 0), "");
        assert_eq!(said(&commands::explain("bin.sheet", &written.output), 0), "");
    }
}

/// Loads are refused with 20 and list the friction; a sheet, whose length is asked for, the other way round.
#[test]
fn a_blank_friction_beside_the_sides() {
    const FRICTION: &str =
        "friction = 0.00: wall friction is missing or 0; it must be 0.10 to 1.00\n";
    const ALSO: &str = "also, as this program reads the rules (the library stops at the first):\n";
    let text = text_with(&[LONG[0], LONG[1], BLANK]);
    let loads = commands::loads("long.silo", text.as_bytes(), Format::Table, Units::Whole);
    let messages = said(&loads, 1);
    assert!(messages.starts_with(&format!("long.silo{REFUSED}")), "{messages}");
    assert!(messages.ends_with(&format!("{SIDES}{ALSO}long.silo:3: {FRICTION}")), "{messages}");
    let written = commands::sheet("long.silo", text.as_bytes());
    let messages = said(&written, 1);
    assert!(messages.starts_with("long.silo: refused, 7: the product is outside"), "{messages}");
    let listed = format!("long.silo:3: {FRICTION}{ALSO}long.silo:11: {SIDES}");
    assert!(
        messages.ends_with(&format!("{listed}the sheet has the numbers as the text has them\n")),
        "{messages}"
    );
    let explained = commands::explain("long.sheet", &written.output);
    assert!(said(&explained, 0).starts_with(&format!("{NOTE}long.sheet{REFUSED}")));
    assert!(String::from_utf8_lossy(&explained.output).contains("\nfriction = 0.00\n"));
}

/// Every command that needs loads refuses the sample and its sheet, and the words are the same.
#[test]
fn every_output_of_loads_is_refused() {
    let text = sample("long-store.silo");
    let sheet = commands::sheet("long-store.silo", &text).output;
    for (file, bytes) in [("long-store.silo", text), ("long-store.sheet", sheet)] {
        let table = commands::loads(file, &bytes, Format::Table, Units::Whole);
        let refused = said(&table, 1);
        assert!(refused.starts_with(&format!("{file}{REFUSED}")), "{refused}");
        assert!(refused.ends_with(SIDES), "{refused}");
        let page = commands::page(file, &bytes);
        assert_eq!((said(&page, 1), &page.output[..]), (refused, &b"REFUSED 20\n"[..]));
        for same in [
            commands::loads(file, &bytes, Format::Csv, Units::Whole),
            commands::loads(file, &bytes, Format::CsvSemicolon, Units::Kilo),
            commands::draw(file, &bytes, Units::Whole),
        ] {
            assert_eq!((said(&same, 1), same.output.len()), (refused, 0));
        }
        for patch in [
            commands::patch(file, &bytes, (2000, 10), Format::Table, Units::Whole),
            commands::draw_patch(file, &bytes, 2000, Units::Whole),
        ] {
            let words = said(&patch, 1);
            assert!(
                words.starts_with(refused) && words.ends_with("sides: a circle is due\n"),
                "{words}"
            );
        }
        let json = commands::loads(file, &bytes, Format::Json, Units::Whole);
        assert_eq!(said(&json, 1), "");
        assert!(String::from_utf8_lossy(&json.output).starts_with("{\n  \"refusal\": 20,\n"));
    }
}
