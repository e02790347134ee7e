//! Names that a text does not have: what is said of each, so that none leads to a lighter silo. And what a sheet leaves unsaid.

mod common;

use common::text_with;
use silo::commands::{self, Format};
use silo::text;

/// A line, and what the message on it has.
const LINES: [((&str, &str), &str); 18] = [
    (("heap", "1500 mm"), "a heap that would lie above the brim is not covered"),
    (("overfill", "0.5 m"), "without it the loads are too low"),
    (("grain above brim", "500 mm"), "without it the loads are too low"),
    (("talus", "500 mm"), "without it the loads are too low"),
    (("partial factor", "1.5"), "characteristic values without partial factors"),
    (("Safety factor", "1.5"), "factor is the product's C0"),
    (("facteur de charge", "1.5"), "factor is the product's C0"),
    (("gamma_F", "1.5"), "characteristic values without partial factors"),
    (("mean weight", "7.65 kN/m3"), "a measured mean is to be raised by at least 1.15"),
    (("poids moyen", "7.65 kN/m3"), "a measured mean is to be raised by at least 1.15"),
    (("friction low", "0.27"), "friction is the mean"),
    (("frottement haut", "0.40"), "friction is the mean"),
    (("characteristic friction", "0.40"), "friction is the mean"),
    (("internal friction", "30 deg"), "is not the friction on the wall"),
    (("hopper angle from vertical", "30 deg"), "90 degrees less the one from the vertical"),
    (("strakes (bottom first)", "2 x 3000, 6 x 1000 mm"), "turn the list round"),
    (("viroles de bas en haut", "2 x 3000, 6 x 1000 mm"), "turn the list round"),
    (("half angle", "30 deg"), "90 degrees less the one from the vertical"),
];

/// None of them is offered as a line of the text with the same number.
#[test]
fn what_a_text_does_not_have_is_answered() {
    for ((name, value), words) in LINES {
        let messages = text::read(&text_with(&[(name, value)])).expect_err(name);
        let [message] = &messages[..] else { panic!("{name}: {messages:?}") };
        assert!(message.words().contains(words), "{}", message.words());
        let with_number = |fix: &&String| !fix.starts_with('#') && fix.contains(value);
        assert_eq!(message.fixes.iter().find(with_number), None, "{name}");
    }
}

/// A slip, and what its fixes begin with: the careful one first, and no lighter one beside it.
type Slip = (&'static [(&'static str, &'static str)], &'static [&'static str]);
const CAREFUL: [Slip; 34] = [
    (&[("headroom", "1.9 m"), ("grain height", "10 m")], &[]),
    (&[("headroom", "1 m"), ("grain height", "9 m")], &["# grain height = 9 m"]),
    (
        &[
            ("phi", "45 deg"),
            ("product", "wheat"),
            ("weight", "-"),
            ("ratio", "-"),
            ("factor", "-"),
        ],
        &["factor = 1.65"],
    ),
    (&[("weight", "48")], &[]),
    (&[("strakes", "2 + 6 x 2 m")], &[]),
    (&[("strakes", "2 1 m")], &["strakes = 2, 1 m"]),
    (&[("outlet eccentricity", "500 mm diameter")], &[]),
    (&[("weight", "9 to 7 kN/m3")], &["weight = 9000 N/m3"]),
    (&[("weight", "80-76 kg/hl")], &["weight = 9026 N/m3"]),
    (&[("weight", "1600")], &["weight = 18051 N/m3"]),
    (&[("weight", "95")], &["weight = 10718 N/m3"]),
    (&[("outlet eccentricity", "centre of outlet 1 m from axis")], &[]),
    (&[("outlet eccentricity", "full")], &[]),
    (
        &[("outlet eccentricity", "0.5")],
        &["outlet eccentricity = 0.5 m", "outlet eccentricity = 0.5 cm"],
    ),
    (&[("strakes", "8 x 200")], &["strakes = 8 x 200 cm", "strakes = 8 x 200 mm"]),
    (&[("strakes", "8 ft 200 mm")], &[]),
    (&[("wall", "steel/concrete")], &[]),
    (&[("wall", "smooth steel, not corrugated")], &[]),
    (
        &[("product", "wheat"), ("weight", "85 kg/hl"), ("ratio", "-"), ("wall", "steel")],
        &["weight = 9590 N/m3"],
    ),
    (&[("wall height", "16 m")], &[]),
    (&[("wall height", "10 m")], &["# wall height = 10 m"]),
    (&[("grain height", "17 m")], &[]),
    (&[("grain height", "8 m")], &["# grain height = 8 m"]),
    (&[("phi", "45 deg"), ("factor", "")], &[]),
    (&[("phi", "45 deg"), ("factor", "-")], &["factor = 1.65"]),
    (&[("phi", "40 deg"), ("factor", "")], &["# phi = 40 deg"]),
    (&[("headroom", "150.5 mm")], &["headroom = 150 mm"]),
    (&[("headroom", "0m30")], &["headroom = 300 mm"]),
    (
        &[("outlet eccentricity", "0.5 mm")],
        &["outlet eccentricity = 1 mm", "outlet eccentricity = 0.5 m"],
    ),
    (
        &[("product", "wheat"), ("weight", "78 kg/hl"), ("ratio", "-"), ("wall", "steel")],
        &["# weight = 78 kg/hl", "weight = 8800 N/m3"],
    ),
    (&[("wall", "stel")], &["wall = steel"]),
    (&[("wall", "concret")], &["wall = concrete"]),
    (&[("wall", "stainless")], &[]),
    (&[("wall", "bright steel")], &[]),
];

/// Words or numbers beside a product, and two products: none is a fix.
#[test]
fn no_product_is_guessed() {
    let fixes = |name| {
        let changes = [("product", name), ("weight", "-"), ("ratio", "-"), ("wall", "steel")];
        text::read(&text_with(&changes)).expect_err(name)[0].fixes.clone()
    };
    for name in ["wheat 10 kN/m3", "wet wheat", "not wheat", "corn or barley", "wheat/barley"] {
        assert_eq!(fixes(name), Vec::<String>::new(), "{name}");
    }
    for name in ["winter wheat", "wheat grains", "wheta"] {
        assert_eq!(fixes(name), ["product = wheat"], "{name}");
    }
}

/// Words beside corrugated that may make the wall a smooth one: no such wall is read, and none offered.
#[test]
fn no_wall_is_guessed() {
    for wall in [
        "smooth steel, not corrugated",
        "acier non ondulé",
        "bolted smooth steel",
        "isn't corrugated",
        "bolted flat panels",
        "tôle plate galvanisée",
        "corrugated or steel",
        "steel, corrugated roof",
        "uncorrugated",
        "decorrugated",
    ] {
        let messages = text::read(&text_with(&[("wall", wall)])).expect_err(wall);
        assert_eq!(messages[0].fixes, Vec::<String>::new(), "{wall}");
    }
    for wall in ["corrugated", "bolted galvanised steel sheets", "tôle ondulée", "acier galvanisé"]
    {
        assert!(text::read(&text_with(&[("wall", wall)])).is_ok(), "{wall}");
    }
}

/// Names with words beside them that may make them another number.
#[test]
fn no_qualified_name_is_guessed() {
    for (name, of) in [
        ("friction of grain", "friction"),
        ("coefficient of internal friction", "friction"),
        ("friction of sand", "friction"),
        ("min weight", "weight"),
        ("factor of safety", "factor"),
        ("Ch", "factor"),
        ("test weight", "weight"),
        ("strakes upward", "strakes"),
        ("bottom strakes", "strakes"),
        ("strakes 1", "strakes"),
        ("hopper diameter", "diameter"),
        ("half diameter", "diameter"),
        ("min diameter", "diameter"),
        ("headroom below hopper", "headroom"),
        ("max headroom", "headroom"),
        ("first strakes", "strakes"),
        ("outlet eccentricity 1", "outlet eccentricity"),
    ] {
        let messages = text::read(&text_with(&[(of, "-"), (name, "1.2")])).expect_err(name);
        let fixes = messages.iter().flat_map(|message| &message.fixes);
        let guessed = |fix: &&String| fix.starts_with(of) && fix.contains("1.2");
        assert_eq!(fixes.clone().find(guessed), None, "{name}");
    }
}

#[test]
fn fixes_are_careful() {
    for (changes, fixes) in CAREFUL {
        let messages = text::read(&text_with(changes)).expect_err("a slip");
        assert_eq!(messages[0].fixes, fixes, "{changes:?}");
    }
}

#[test]
fn a_sheet_says_what_it_leaves_out() {
    let said = |changes: &[(&str, &str)]| {
        commands::sheet("any.silo", text_with(changes).as_bytes()).messages
    };
    assert_eq!(said(&[]), "");
    assert_eq!(said(&[("wall", "steel")]), "");
    for changes in [("wall", "concrete"), ("stiffeners", "yes")] {
        assert!(said(&[changes]).starts_with("note: a sheet does not say"), "{changes:?}");
    }
    assert_eq!(said(&[("diameter", "-"), ("sides", "5 x 6 m"), ("wall", "concrete")]), "");
}

/// Two of 4 m, or 2 m by 4 m: neither is offered.
#[test]
fn a_square_may_be_meant() {
    let said = |sides| {
        let text = text_with(&[("diameter", "-"), ("sides", sides)]);
        commands::check("any.silo", text.as_bytes(), Format::Table).output
    };
    let said = |sides| String::from_utf8(said(sides)).expect("UTF-8");
    assert!(!said("2 x 4000 mm").contains("did you mean"));
    assert!(said("4 x 6000 mm").contains("did you mean 4000 mm?"));
}

/// Every length is read in every unit of length.
#[test]
fn lengths_in_feet() {
    for name in ["headroom", "filling eccentricity", "outlet eccentricity", "diameter"] {
        let changes = [("diameter", "20000 mm"), (name, "5 ft")];
        let read = text::read(&text_with(&changes)).unwrap_or_else(|said| panic!("{said:?}"));
        let silo = read.description;
        let lengths = [
            silo.headroom,
            silo.filling_eccentricity,
            silo.outlet_eccentricity,
            silo.section.shorter_side(),
        ];
        assert!(lengths.contains(&1524), "{name}: {lengths:?}");
    }
}
