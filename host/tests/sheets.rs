//! Damaged and random bytes through every command that reads a sheet.

mod common;

use common::{sample, Random};
use silo::commands::{self, Format, Outcome};
use silo::library::{self, Refusal};
use silo::text;
use silo::units::Units;

fn damaged(random: &mut Random, sheet: &[u8]) -> Vec<u8> {
    let mut bytes = sheet.to_vec();
    for _ in 0..1 + random.below(3) {
        let at = random.below(bytes.len().max(1)).min(bytes.len());
        match random.below(6) {
            0 => bytes.truncate(at),
            1 => bytes.insert(at, random.next() as u8),
            2 if at < bytes.len() => drop(bytes.remove(at)),
            3 => bytes.extend(vec![0; random.below(1100)]),
            _ if at < bytes.len() => bytes[at] = random.of(&[0, 1, 2, 4, 7, 8, 200, 255]),
            _ => (),
        }
    }
    bytes
}

/// The exit status agrees with the library, and a refusal is said with the library's number.
fn agrees(outcome: &Outcome, bytes: &[u8]) {
    match library::verdict(bytes) {
        Ok(()) => assert_eq!(outcome.status, 0),
        Err(refusal) => {
            assert_eq!(outcome.status, 1, "{bytes:?}: {}", outcome.messages);
            let said = format!("any.sheet: refused, {}: {}\n", refusal.0, refusal.meaning());
            assert!(outcome.messages.starts_with(&said), "{}", outcome.messages);
            assert!(outcome.messages.lines().count() > 1, "no place: {}", outcome.messages);
        }
    }
}

#[test]
fn damaged_sheets_are_judged_by_the_library_alone() {
    let mut random = Random(19_914);
    let names = [
        "wheat-tower.silo",
        "barley-bin.silo",
        "cement.silo",
        "flat-store.silo",
        "long-store.silo",
        "headroom-bin.silo",
        "blank-factor.silo",
    ];
    let sheets = names.map(|name| {
        let text = String::from_utf8(sample(name)).expect(name);
        text::read(&text).expect(name).description.to_bytes()
    });
    let mut accepted = 0;
    for i in 0..20_000 {
        let bytes = damaged(&mut random, &sheets[i % sheets.len()]);
        let starts = |start: &u8| bytes.first() == Some(start);
        if !bytes.is_empty() && !bytes.contains(&0) || b"<{".iter().any(starts) {
            // a few bytes that may be text, or a file of another program
            continue;
        }
        agrees(&commands::loads("any.sheet", &bytes, Format::Table, Units::Whole), &bytes);
        let page = commands::page("any.sheet", &bytes);
        agrees(&page, &bytes);
        let refused = |refusal: Refusal| format!("REFUSED {}\n", refusal.0).into_bytes();
        assert_eq!(page.output, library::page(&bytes).unwrap_or_else(refused));
        commands::loads("any.sheet", &bytes, Format::Csv, Units::Whole);
        commands::loads("any.sheet", &bytes, Format::Json, Units::Whole);
        let explained = commands::explain("any.sheet", &bytes);
        let form = library::verdict(&bytes).is_err_and(|refusal| refusal.is_of_form());
        assert_eq!(explained.status, u8::from(form));
        if i % 4 == 0 {
            agrees(&commands::draw("any.sheet", &bytes, Units::Whole), &bytes);
        }
        accepted += u32::from(library::verdict(&bytes).is_ok());
    }
    println!("20,000 damaged sheets, of which {accepted} are accepted");
    assert!(accepted > 500);
}

#[test]
fn random_bytes_never_stop_a_command() {
    let mut random = Random(42);
    for _ in 0..20_000 {
        let length = random.below(1200);
        let narrow = random.below(2) == 0;
        let byte =
            |random: &mut Random| if narrow { random.below(9) as u8 } else { random.next() as u8 };
        let bytes: Vec<u8> = (0..length).map(|_| byte(&mut random)).collect();
        let commands = [
            commands::loads("any", &bytes, Format::Table, Units::Whole),
            commands::page("any", &bytes),
            commands::explain("any", &bytes),
            commands::draw("any", &bytes, Units::Whole),
            commands::sheet("any", &bytes),
        ];
        assert!(commands.iter().all(|outcome| outcome.status > 0 && !outcome.messages.is_empty()));
    }
}
