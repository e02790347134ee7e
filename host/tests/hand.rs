//! The loads made by hand from what the outputs show, beside those that the library answers; and that the program sees a difference.

mod any;
mod common;

use any::accepted;
use common::{only_doubts, sample, Random, SAMPLES};
use silo::commands::{self, Format};
use silo::description::Description;
use silo::fraction::Fraction;
use silo::hand::Hand;
use silo::library::{self, Loads};
use silo::units::Units;
use std::collections::HashMap;

/// A page of separated values: what its `silo` rows say, exact, and its other rows by part.
struct Page {
    facts: HashMap<String, Fraction>,
    rows: HashMap<String, Vec<Vec<u32>>>,
}

/// A decimal, or the fraction from which it is rounded.
fn exact(cells: &[&str]) -> Option<Fraction> {
    if let Some((_, fraction)) = cells.iter().find_map(|cell| cell.split_once("rounded from ")) {
        let (top, bottom) = fraction.split_once('/')?;
        return Some(Fraction::new(top.parse::<u128>().ok()?, bottom.parse::<u128>().ok()?));
    }
    let (whole, digits) = cells[2].split_once('.').unwrap_or((cells[2], ""));
    let top: u128 = format!("{whole}{digits}").parse().ok()?;
    Some(Fraction::new(top, 10_u128.pow(digits.len() as u32)))
}

impl Page {
    fn of(file: &[u8]) -> Page {
        let outcome = commands::loads("any", file, Format::Csv, Units::Whole);
        assert!(outcome.status == 0 && only_doubts(&outcome.messages), "{}", outcome.messages);
        let mut page = Page { facts: HashMap::new(), rows: HashMap::new() };
        for line in String::from_utf8(outcome.output).expect("UTF-8").lines() {
            let cells: Vec<&str> = line.split(',').collect();
            if let ("silo", Some(fact)) = (cells[0], exact(&cells)) {
                page.facts.insert(cells[1].to_string(), fact);
            }
            let numbers = cells[1..].iter().map(|cell| cell.parse().unwrap_or(0)).collect();
            page.rows.entry(cells[0].to_string()).or_default().push(numbers);
        }
        page
    }

    fn fact(&self, name: &str) -> Fraction {
        *self.facts.get(name).unwrap_or_else(|| panic!("{name}"))
    }

    fn rows(&self, part: &str) -> &[Vec<u32>] {
        self.rows.get(part).map(Vec::as_slice).unwrap_or_default()
    }

    fn up(&self, factor: Fraction, load: u32) -> u128 {
        (factor.top * u128::from(load)).div_ceil(factor.bottom)
    }
}

/// Places in a row of the page, behind its part.
const Z: usize = 1;
const P_HF: usize = 2;
const P_WF: usize = 3;
const P_W: usize = 5;
const P_HE: usize = 6;
const P_WE: usize = 7;
const P_P: usize = 8;
const FLOOR: usize = 9;
const P_N: usize = 10;
const P_T: usize = 11;
const WITH_PATCH: usize = 13;

fn value(fraction: Fraction) -> f64 {
    fraction.top as f64 / fraction.bottom as f64
}

/// P (1 - e^(-q)) is at most the load, which is less than 2 above; so is P_w.
fn compare_filling(page: &Page, row: &[u32], headroom: u32) -> usize {
    let depth = f64::from(row[Z].saturating_sub(headroom));
    for (i, load) in ["p_hf", "p_wf", "p_vf", "P_w"].into_iter().enumerate() {
        let [limit, z0] = ["P", "z0"].map(|name| value(page.fact(&format!("{load} {name}"))));
        let c_z = 1.0 - (-depth / z0).exp();
        let due = match P_HF + i {
            P_W => limit / 1000.0 * (depth - z0 * c_z),
            _ => limit * c_z,
        };
        let over = f64::from(row[P_HF + i]) - due;
        assert!((-1e-4..2.0001).contains(&over), "{load} at {depth}: {} for {due}", row[P_HF + i]);
    }
    4
}

fn compare_discharge(page: &Page, row: &[u32]) -> usize {
    let patch = Fraction::new(page.fact("beta").top, 5 * page.fact("beta").bottom);
    assert_eq!(u128::from(row[P_HE]), page.up(page.fact("C_h"), row[P_HF]));
    assert_eq!(u128::from(row[P_WE]), page.up(page.fact("C_w"), row[P_WF]));
    assert_eq!(u128::from(row[P_P]), page.up(patch, row[P_HE]));
    3
}

fn compare_bottom(page: &Page) -> usize {
    let foot = page.fact("p_vf(V)").up() as u32;
    for floor in page.rows("floor") {
        assert_eq!(u128::from(floor[FLOOR]), page.up(Fraction { top: 6, bottom: 5 }, foot));
    }
    for (k, row) in (0..).zip(page.rows("hopper")) {
        let sine = page.fact("sin^2 alpha");
        // 1.2 (1 - sin²) + sin² k/4, twentieths
        let share = 24 * (sine.bottom - sine.top) + 5 * k * sine.top;
        let share = Fraction::new(share, 20 * sine.bottom);
        assert_eq!(u128::from(row[P_N]), page.fact("n3").top + page.up(share, foot));
        assert_eq!(u128::from(row[P_T]), page.up(page.fact("P_t mu"), row[P_N]));
    }
    page.rows("floor").len() + 2 * page.rows("hopper").len()
}

/// n3 is the least n with 0.9 mu n² ≥ B², B the least whole number not below 3 R gamma 1.15 Ks sin².
fn compare_n3(page: &Page) {
    if page.rows("hopper").is_empty() {
        return;
    }
    let [r, gamma, ratio, sine] =
        ["R", "weight", "n3 Ks", "sin^2 alpha"].map(|name| page.fact(name));
    let base = r.times(gamma).times(ratio).times(sine).times(Fraction::new(3_u32, 1000_u32));
    let [b, n3] = ["B", "n3"].map(|name| page.fact(name).up());
    assert_eq!(base.up(), b);
    let mu = page.fact("n3 mu");
    let reaches = |n: u128| mu.top * n * n >= b * b * mu.bottom;
    assert!(reaches(n3) && !reaches(n3 - 1));
}

/// P, z0 and q from R, the weight, and the load's own Ks and mu.
fn compare_quantities(page: &Page, grain: u64) {
    let weight = page.fact("R").times(page.fact("weight")).times(Fraction::new(1_u32, 1000_u32));
    for load in ["p_hf", "p_wf", "p_vf", "P_w"] {
        let of = |name: &str| page.fact(&format!("{load} {name}"));
        let both = of("Ks").times(of("mu"));
        assert_eq!(of("z0"), page.fact("R").over(both), "{load}");
        assert_eq!(of("q at V"), Fraction::whole(grain).over(of("z0")), "{load}");
        let limit = match load {
            "p_hf" => weight.over(of("mu")),
            "p_vf" => weight.over(both),
            _ => weight,
        };
        assert_eq!(of("P"), limit, "{load}");
    }
}

/// All loads of a file; how many were compared.
fn compare(file: &[u8], silo: &Description) -> usize {
    let page = Page::of(file);
    compare_quantities(&page, silo.grain_height());
    compare_n3(&page);
    let mut compared = compare_bottom(&page);
    for row in page.rows("depth") {
        compared += compare_filling(&page, row, silo.headroom) + compare_discharge(&page, row);
    }
    for (strake, edge) in page.rows("strake").iter().zip(silo.edges()) {
        assert_eq!(u64::from(strake[Z]), edge.1);
        assert_eq!(strake[WITH_PATCH - 1], u32::from(edge.0));
        assert_eq!(strake[WITH_PATCH], strake[P_HE] + strake[P_P]);
        compared += 1;
    }
    compared
}

#[test]
fn samples_by_hand() {
    for name in SAMPLES {
        let text = sample(&format!("{name}.silo"));
        let sheet = commands::sheet("any", &text).output;
        let silo = Description::from_bytes(&sheet).expect("a sheet");
        assert!(compare(&text, &silo) > 50, "{name}");
    }
}

#[test]
fn any_silos_by_hand() {
    let mut random = Random(3201);
    let (mut compared, mut hoppers) = (0, 0);
    for _ in 0..4000 {
        let silo = accepted(&mut random);
        compared += compare(&silo.to_bytes(), &silo);
        hoppers += usize::from(!silo.is_flat());
    }
    println!("{compared} loads of 4000 silos, {hoppers} with hoppers, made by hand");
    assert!(hoppers > 500 && compared > 100_000);
}

/// P and z0 of a load as a table shows them.
fn shown(table: &str, load: &str) -> [f64; 2] {
    let line = table.lines().find(|line| line.starts_with(&format!("{load:<6}gamma R")));
    let numbers = line.expect(load).split_whitespace().filter_map(|word| word.parse().ok());
    let numbers: Vec<f64> = numbers.collect();
    [numbers[0], numbers[1]]
}

/// Filling loads made with the decimals of a table, rounded as they are, are off by less than 0.25 Pa or N/m.
#[test]
fn a_table_has_digits_enough() {
    let mut random = Random(3205);
    for _ in 0..1000 {
        let silo = accepted(&mut random);
        let outcome = commands::loads("any", &silo.to_bytes(), Format::Table, Units::Whole);
        let table = String::from_utf8(outcome.output).expect("UTF-8");
        for (place, load) in ["p_hf", "p_wf", "p_vf", "P_w"].into_iter().enumerate() {
            let [limit, z0] = shown(&table, load);
            for row in loads(&silo).rows() {
                let depth = f64::from(row[library::Z].saturating_sub(silo.headroom));
                let c_z = 1.0 - (-depth / z0).exp();
                let made = match load {
                    "P_w" => limit * (depth - z0 * c_z) / 1000.0,
                    _ => limit * c_z,
                };
                let over = f64::from(row[library::P_HF + place]) - made;
                assert!((-0.25..2.25).contains(&over), "{load} at {depth}: {over} in {silo:?}");
            }
        }
    }
}

fn loads(silo: &Description) -> Loads {
    Loads::of(&silo.to_bytes(), silo.strakes.len()).expect("an accepted silo")
}

/// The tool's own comparison passes, and fails where the loads are those of a silo that differs a little.
#[test]
fn a_difference_is_seen() {
    type Change = fn(&mut Description);
    const CHANGES: [Change; 6] = [
        |silo| silo.product.friction += 1,
        |silo| silo.product.ratio += 1,
        |silo| silo.product.weight += 100,
        |silo| silo.product.factor = silo.product.factor_used() + 1,
        |silo| {
            silo.outlet_eccentricity = silo.filling_eccentricity.max(silo.outlet_eccentricity) + 20
        },
        |silo| silo.hopper_height += 20,
    ];
    let mut random = Random(3202);
    let mut seen = [0; CHANGES.len()];
    for _ in 0..300 {
        let silo = accepted(&mut random);
        let (loads, edges) = (loads(&silo), loads(&silo.at_edges()));
        assert_eq!(Hand::of(&silo).difference(&loads, &edges), None, "{silo:?}");
        for (change, seen) in CHANGES.iter().zip(&mut seen) {
            let mut other = silo.clone();
            change(&mut other);
            if other.is_accepted() && other.is_flat() == silo.is_flat() {
                *seen += usize::from(Hand::of(&other).difference(&loads, &edges).is_some());
            }
        }
    }
    assert!(seen.iter().all(|count| *count > 30), "{seen:?}");
}
