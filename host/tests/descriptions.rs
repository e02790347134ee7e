//! Random silos, refused ones too: text to bytes and back, and the tool's explanations beside the library's verdict.

mod common;

use common::Random;
use silo::commands;
use silo::description::{Description, Product, Section};
use silo::discharge::{Discharge, Shape};
use silo::library::{self, Refusal};
use silo::{place, text};

/// Numbers at and beside the library's limits, and any others.
fn number(random: &mut Random) -> u32 {
    let near: [u32; 16] =
        [0, 1, 9, 10, 20, 100, 135, 200, 500, 1000, 2000, 3000, 9000, 25_000, 50_000, 65_535];
    match random.below(4) {
        0 => random.next() as u32,
        1 => random.of(&near).saturating_sub(1),
        2 => random.of(&near) + 1,
        _ => random.of(&near),
    }
}

fn any_description(random: &mut Random) -> Description {
    let section = match random.below(2) {
        0 => Section::Circle(number(random)),
        _ => Section::Rectangle(number(random), number(random)),
    };
    let mut half = || number(random) as u16;
    let (ratio, friction, factor) = (half(), half(), half());
    let product = Product { weight: number(random), ratio, friction, factor };
    let product = match random.below(4) {
        0 => {
            Product::from_catalogue(random.below(10) as u32, random.below(2) as u32).expect("a row")
        }
        _ => product,
    };
    let flat = random.below(3) == 0;
    let mut bottom = || if flat { 0 } else { number(random) };
    let (hopper_height, hopper_run) = (bottom(), bottom());
    let equal = random.below(2) == 0;
    let height = number(random) as u16;
    let mut strake = || if equal { height } else { number(random) as u16 };
    let strakes: Vec<u16> = (0..1 + height % 24).map(|_| strake()).collect();
    let silo = Description {
        section,
        product,
        filling_eccentricity: number(random),
        outlet_eccentricity: number(random),
        hopper_height,
        hopper_run,
        depths: Vec::new(),
        headroom: match random.below(2) {
            0 => 0,
            _ => number(random),
        },
        strakes,
    };
    Description { depths: any_depths(random, &silo), ..silo }
}

fn description(random: &mut Random, i: usize) -> Description {
    match i % 2 {
        0 => any_description(random),
        _ => slipped(random),
    }
}

/// A rectangle with that shorter side, about three times as long as wide, either side first.
fn long_section(random: &mut Random, shorter: u32) -> Section {
    let longer = 3 * shorter + random.of(&[0, 1, 2]) - 1;
    random.of(&[Section::Rectangle(longer, shorter), Section::Rectangle(shorter, longer)])
}

/// Mostly accepted, slender or squat; in one of two silos one number may be at fault.
fn slipped(random: &mut Random) -> Description {
    let mut silo = usual_description(random);
    if random.below(2) == 0 {
        silo.section = Section::Circle(random.of(&[7000, 9000, 12_000, 30_000, 50_000]));
    }
    let number = number(random);
    match random.below(16) {
        0 => silo.section = Section::Circle(number),
        1 => silo.product.weight = number,
        2 => silo.product.friction = number as u16,
        3 => silo.outlet_eccentricity = number,
        4 => silo.hopper_height = number,
        5 => silo.hopper_run = number,
        6 => silo.strakes[0] = number as u16,
        7 => silo.depths[0] = number,
        8 => silo.headroom = number,
        9 => silo.headroom = silo.wall_height() as u32 - random.of(&[0, 1, 2]),
        10 => {
            (silo.filling_eccentricity, silo.hopper_height, silo.hopper_run) = (0, 0, 0);
            silo.section = Section::Circle(silo.height() as u32 / 10 + random.of(&[0, 1]));
        }
        11 => silo.section = long_section(random, silo.section.shorter_side()),
        _ => (),
    }
    silo
}

/// Mostly accepted.
fn usual_description(random: &mut Random) -> Description {
    let strakes: Vec<u16> =
        (0..4 + random.below(8)).map(|_| 1000 + random.below(1500) as u16).collect();
    let product = Product::from_catalogue(random.below(10) as u32, random.below(2) as u32);
    let (hopper_height, hopper_run) = random.of(&[(0, 0), (2000, 1100)]);
    let silo = Description {
        section: Section::Circle(2300 + random.below(2000) as u32),
        product: product.expect("a row"),
        filling_eccentricity: random.below(570) as u32,
        outlet_eccentricity: 0,
        hopper_height,
        hopper_run,
        depths: Vec::new(),
        headroom: random.of(&[0, 0, 300, 2500]),
        strakes,
    };
    Description { depths: any_depths(random, &silo), ..silo }
}

fn any_depths(random: &mut Random, silo: &Description) -> Vec<u32> {
    let wall = silo.wall_height() as u32;
    let count = 1 + random.below(200) as u32;
    match random.below(3) {
        0 => [0].into_iter().chain(silo.edges().map(|(_, edge)| edge as u32)).collect(),
        1 => (0..count).map(|i| i * (wall / count)).chain([wall]).take(200).collect(),
        _ => (0..count).map(|_| number(random)).collect(),
    }
}

#[test]
fn bytes_to_text_and_back_are_the_same() {
    let mut random = Random(20261115);
    let mut accepted = 0;
    for i in 0..20_000 {
        let silo = description(&mut random, i);
        let sheet = silo.to_bytes();
        assert_eq!(Description::from_bytes(&sheet).as_ref(), Ok(&silo));
        let outcome = commands::explain("any.sheet", &sheet);
        assert_eq!(outcome.status, 0);
        let text = String::from_utf8(outcome.output).expect("UTF-8");
        let read = text::read(&text).unwrap_or_else(|errors| panic!("{text}{errors:?}"));
        assert_eq!(read.description.to_bytes(), sheet, "{text}");
        assert_eq!(text::write(&read.description), text);
        accepted += u32::from(library::verdict(&sheet).is_ok());
    }
    println!("20,000 descriptions, of which {accepted} are accepted");
}

/// The rules on a silo's numbers, in the order in which the load call tries them; a length is told without 20.
const ORDER: [u32; 9] = [6, 20, 7, 8, 9, 10, 11, 17, 12];

/// The first refusal for which the tool finds a place is the library's.
#[test]
fn explanations_agree_with_the_library() {
    let mut random = Random(611);
    let mut met = [0; 21];
    let mut shapes = [0; 3];
    for i in 0..100_000 {
        let silo = description(&mut random, i);
        let found = |number: &u32| !place::places(Refusal(*number), &silo).is_empty();
        let sheet = silo.to_bytes();
        let verdict = library::verdict(&sheet).err();
        assert_eq!(verdict, ORDER.into_iter().find(found).map(Refusal), "{silo:?}");
        let of_length = ORDER.into_iter().filter(|number| *number != 20).find(found);
        let lengths = [library::answers_length(&sheet), library::page_length(&sheet)];
        assert_eq!(lengths.map(Result::err), [of_length.map(Refusal); 2], "{silo:?}");
        met[verdict.map_or(0, |refusal| refusal.0) as usize] += 1;
        if verdict.is_none() {
            let shape = Discharge::of(&silo).shape;
            let place = [Shape::Slender, Shape::Squat, Shape::Low].iter().position(|s| *s == shape);
            shapes[place.expect("a shape")] += 1;
        }
    }
    println!(
        "100,000 descriptions, accepted and refused 1 to 20: {met:?}; of each shape {shapes:?}"
    );
    let tried = ORDER.iter().all(|number| met[*number as usize] > 0);
    assert!(shapes.iter().all(|count| *count > 1000) && tried);
}

type Slip = fn(&mut Description);

/// One number at fault, which breaks a rule and leaves every size alone that another number is measured by.
const SLIPS: [(u32, Slip); 8] = [
    (20, |silo| {
        let side = silo.section.shorter_side();
        silo.section = Section::Rectangle(3 * side + 1, side);
    }),
    (7, |silo| silo.product.weight = 999),
    (7, |silo| silo.product.friction = 0),
    (8, |silo| silo.filling_eccentricity = 50_000),
    (8, |silo| silo.outlet_eccentricity = u32::MAX),
    (11, |silo| silo.depths[0] = u32::MAX),
    (11, |silo| silo.depths.push(0)),
    (12, |silo| silo.strakes = vec![3000; 24]),
];

/// Every limit that is broken is listed, the library's first, each once.
#[test]
fn all_broken_limits_are_listed() {
    let mut random = Random(2026);
    let mut several = 0;
    for _ in 0..20_000 {
        let mut silo = usual_description(&mut random);
        if !silo.is_accepted() || silo.depths.len() > 199 {
            continue;
        }
        let mut broken = Vec::new();
        for (number, slip) in SLIPS {
            if random.below(3) == 0 {
                slip(&mut silo);
                broken.push(number);
            }
        }
        broken.dedup();
        let first = library::verdict(&silo.to_bytes()).err().map(|refusal| refusal.0);
        assert_eq!(first, broken.first().copied(), "{silo:?}");
        let Some(first) = first else { continue };
        let mut listed: Vec<u32> =
            place::others(Refusal(first), &silo).iter().map(|(refusal, _)| refusal.0).collect();
        listed.dedup();
        assert_eq!(listed, broken[1..], "{silo:?}");
        assert_eq!(place::later(&silo), None);
        several += u32::from(broken.len() > 2);
    }
    println!("{several} silos with three or more broken limits");
    assert!(several > 1000);
}

/// The places of the limits that are broken beside the first, as a person reads them.
fn others(first: Refusal, silo: &Description) -> Vec<String> {
    let shown = |(refusal, place): (Refusal, place::Place)| {
        format!("{}: {}: {}", refusal.0, place.field.shown(silo), place.slip)
    };
    place::others(first, silo).into_iter().map(shown).collect()
}

/// A headroom is measured by a wall that is sound, and h by a headroom that is.
#[test]
fn a_headroom_at_fault_is_listed_and_leaves_h_for_later() {
    let mut silo = usual_description(&mut Random(8));
    (silo.section, silo.strakes, silo.depths) = (Section::Circle(2000), vec![2000; 5], vec![0]);
    (silo.hopper_height, silo.hopper_run, silo.headroom) = (0, 0, 10_000);
    assert_eq!(library::verdict(&silo.to_bytes()), Err(Refusal::HEADROOM));
    silo.product.weight = 999;
    let why = "no grain is left at the wall; it must be under the sum of the strakes, 10000 mm";
    let good = "at most 9999 mm, or strakes of more than 10000 mm together";
    let meant = "if the grain's height was meant, the headroom is the rest";
    assert_eq!(
        others(Refusal::PRODUCT, &silo),
        [format!("17: headroom = 10000 mm: {why}: {good}; {meant}")]
    );
    let later = |size| Some(format!("limits measured by {size} are judged after the mend"));
    assert_eq!(place::later(&silo), later("the headroom"));
    silo.strakes[0] = 0;
    assert_eq!(place::later(&silo), later("the strakes"));
    assert_eq!(others(Refusal::STRAKE, &silo).len(), 1);
}

/// Whatever headroom is offered is accepted, and where none is offered none would be.
#[test]
fn offered_headrooms_are_accepted() {
    let mut random = Random(1712);
    let mut offered = 0;
    for _ in 0..100_000 {
        let silo = slipped(&mut random);
        let accepted = |headroom: u32| Description { headroom, ..silo.clone() }.is_accepted();
        let why = |refusal| place::places(refusal, &silo).remove(0).slip.to_string();
        let mend = match library::verdict(&silo.to_bytes()) {
            Err(Refusal::HEADROOM) => why(Refusal::HEADROOM)
                .split_once(": ")
                .map(|(_, mend)| mend.split(", or").next().unwrap_or_default().to_string()),
            Err(Refusal::TOO_SLENDER) if silo.headroom > 0 => why(Refusal::TOO_SLENDER)
                .split_once("headroom of ")
                .map(|(_, mend)| mend.to_string()),
            _ => continue,
        };
        let numbers: Vec<u32> =
            mend.iter().flat_map(|mend| mend.split(' ')).filter_map(|n| n.parse().ok()).collect();
        assert!(numbers.iter().all(|headroom| accepted(*headroom)), "{mend:?} {silo:?}");
        assert!(mend.is_some() || !accepted(silo.wall_height() as u32 - 1), "{silo:?}");
        offered += numbers.len();
    }
    println!("{offered} headrooms offered");
    assert!(offered > 1000);
}

/// Whatever sides are offered are accepted, and 1 mm beyond them is not.
#[test]
fn offered_sides_are_accepted() {
    let mut random = Random(20);
    let mut silo = usual_description(&mut random);
    (silo.strakes, silo.depths, silo.headroom) = (vec![200; 4], vec![0], 0);
    (silo.filling_eccentricity, silo.hopper_height, silo.hopper_run) = (0, 0, 0);
    let with = |a, b| Description { section: Section::Rectangle(a, b), ..silo.clone() };
    let accepted = |a, b| with(a, b).is_accepted();
    for _ in 0..10_000 {
        let shorter = 500 + random.below(16_000) as u32;
        let longer = 3 * shorter + 1 + random.below(50_000 - 3 * shorter as usize) as u32;
        let why = place::places(Refusal::UNEQUAL_SIDES, &with(longer, shorter))
            .remove(0)
            .slip
            .to_string();
        let numbers: Vec<u32> = why.split(' ').filter_map(|word| word.parse().ok()).collect();
        let [long, short, most, least, bins, each, width] = numbers[..] else { panic!("{why}") };
        assert_eq!([long, short, width], [longer, shorter, shorter]);
        assert!(accepted(most, shorter) && !accepted(most + 1, shorter), "{why}");
        assert!(accepted(longer, least) && !accepted(longer, least - 1), "{why}");
        assert!(accepted(each, shorter) && longer / bins == each, "{why}");
        assert!(longer > (bins - 1) * most, "fewer bins would do: {why}");
    }
}
