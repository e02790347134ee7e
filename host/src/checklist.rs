//! The checklist for whoever puts the loads on paper. Each line is ticked or left open by looking at this very silo.

use crate::basis::{self, Made};
use crate::catalogue::{self, Origin};
use crate::fraction::Fraction;
use crate::hand::Hand;
use crate::library::{Loads, P_VF, ROW, Z};
use crate::name::Name;
use crate::number::hundredths;
use crate::report::Report;

pub struct Item {
    /// What is looked at.
    pub line: &'static str,
    pub ok: bool,
    pub words: String,
}

const FAULT: &str = "do not use these loads, and tell whoever maintains the program";

pub fn items(report: &Report, loads: &Loads) -> [Item; 4] {
    [entered(report), extremes(report, loads), downward(report, loads), bottom(report, loads)]
}

/// Which friction was entered, and whose it is. A sheet does not say, unless its numbers are those of table 7.1.
fn entered(report: &Report) -> Item {
    let (product, origin) = (&report.silo.product, report.origin);
    let mean = hundredths(product.friction.into());
    let (ok, whose) = match origin.row.filter(|_| !origin.replaced.contains(&Name::Friction)) {
        Some(row) => {
            let numbers = Origin::numbers(row, origin.wall.as_ref());
            let equal = numbers.is_ok_and(|numbers| numbers.friction == product.friction);
            let shown = origin.shown(product);
            (equal, format!("table 7.1's for {}", shown.split(',').next().unwrap_or_default()))
        }
        None if !report.of_sheet => (true, "the text's own".to_string()),
        None => match catalogue::name_of(product) {
            Some(name) => (true, format!("the sheet's, which table 7.1 has for {name}")),
            None => (false, "the sheet's, which does not say whose it is: compare it".to_string()),
        },
    };
    Item { line: "friction entered", ok, words: format!("the mean, mu {mean}: {whose}") }
}

/// Which friction each load has; the loads made again with it by hand are those of the list.
fn extremes(report: &Report, loads: &Loads) -> Item {
    let all = basis::loads(report.silo);
    let said = |low: bool, word: &str| {
        let loads: Vec<Made> =
            all.iter().copied().filter(|made| made.with.is_low() == low).collect();
        let times = Fraction::hundredths(loads[0].with.friction_times).shown();
        let friction = loads[0].with.friction(&report.silo.product).shown();
        let names: Vec<&str> = loads.iter().map(|made| made.load).collect();
        format!("{word}, {times} mu = {friction}, for {}", listed(&names))
    };
    let difference = Hand::of(report.silo).difference(loads, &report.edges);
    let looked = match &difference {
        None => "made again with these, each load is the one listed".to_string(),
        Some(place) => format!("BUT {place} is not made with it: {FAULT}"),
    };
    let words = format!("{}; {}; {looked}", said(true, "low"), said(false, "high"));
    Item { line: "which friction for which load", ok: difference.is_none(), words }
}

/// "a, b and c"
fn listed(names: &[&str]) -> String {
    match names {
        [before @ .., last] if !before.is_empty() => format!("{} and {last}", before.join(", ")),
        _ => names.concat(),
    }
}

/// That no number is smaller than the one above it.
fn downward(report: &Report, loads: &Loads) -> Item {
    let [rows, edges] = [loads, &report.edges].map(first_smaller);
    let strakes = loads.strakes();
    let strake = strakes.windows(2).position(|pair| pair[1] < pair[0]);
    let strake = strake.map(|above| format!("strake {}", above + 2));
    let smaller = rows.or(edges).or(strake);
    let words = match &smaller {
        None => format!(
            "no number is smaller than the one above; that is proved, and looked at in {} and {}",
            counted(loads.column(Z).len(), "row"),
            counted(strakes.len(), "strake")
        ),
        Some(place) => format!("BUT {place} is smaller than the one above: {FAULT}"),
    };
    Item { line: "rows read downward", ok: smaller.is_none(), words }
}

/// The first load that is smaller than the one above it.
fn first_smaller(loads: &Loads) -> Option<String> {
    let rows: Vec<[u32; ROW]> = loads.rows().collect();
    rows.windows(2).find_map(|pair| {
        let place = (0..basis::WALL.len()).find(|load| pair[1][load + 1] < pair[0][load + 1])?;
        Some(format!("{} at z = {} mm", basis::WALL[place].load, pair[1][Z]))
    })
}

fn counted(count: usize, noun: &str) -> String {
    let plural = if count == 1 { "" } else { "s" };
    format!("{count} {noun}{plural}")
}

/// Floor or hopper beside p_vf at the wall's foot, on which they rest.
fn bottom(report: &Report, loads: &Loads) -> Item {
    let (units, unit) = (report.units, report.units.pressure());
    let foot = report.foot(P_VF);
    let difference = Hand::of(report.silo).bottom(loads, foot);
    let foot = format!("p_vf(V) {} {unit}", units.show(foot));
    let (line, numbers) = match report.silo.is_flat() {
        true => {
            let floor = units.show(loads.floor());
            (
                "floor beside p_vf(V)",
                format!("floor {floor} {unit} is 1.2 times {foot}, rounded up"),
            )
        }
        false => {
            let of = |(k, normal, tangential): (usize, u32, u32)| {
                let [normal, tangential] = [normal, tangential].map(|load| units.show(load));
                format!("P_n {normal} and P_t {tangential} {unit} at k = {k}")
            };
            let ends: Vec<String> = loads.hopper().step_by(4).map(of).collect();
            ("hopper beside p_vf(V)", format!("{}; {foot}", ends.join(", ")))
        }
    };
    let words = match &difference {
        None => numbers,
        Some(place) => format!("{numbers}; BUT {place} is not made from it: {FAULT}"),
    };
    Item { line, ok: difference.is_none(), words }
}

#[cfg(test)]
mod tests {
    use super::*;
    use crate::description::{Description, Product, Section};
    use crate::library::place;
    use crate::report::{Labels, Said};
    use crate::units::Units;

    const STRAKES: usize = 3;

    fn silo(hopper: u32) -> Description {
        let silo = Description {
            section: Section::Circle(5000),
            product: Product { weight: 9000, ratio: 50, friction: 40, factor: 140 },
            filling_eccentricity: 0,
            outlet_eccentricity: 300,
            hopper_height: hopper,
            hopper_run: hopper,
            strakes: vec![3000; STRAKES],
            depths: Vec::new(),
            headroom: 500,
        };
        silo.at_edges()
    }

    /// Which lines are ticked where the number at a place of the list is another.
    fn ticked(hopper: u32, place: usize, number: impl Fn(u32) -> u32) -> [bool; 4] {
        let (silo, origin, labels) = (silo(hopper), Origin::default(), Labels::new());
        let said = Said { file: "any", origin: &origin, stiffened: false, labels: &labels };
        let report = Report::of(&silo, said, Units::Whole).expect("an accepted silo");
        let loads = Loads::of(&silo.to_bytes(), STRAKES).expect("an accepted silo");
        let items = items(&report, &loads.with(place, number));
        for item in &items {
            assert_eq!(item.words.contains("BUT"), !item.ok, "{}: {}", item.line, item.words);
        }
        items.map(|item| item.ok)
    }

    #[test]
    fn a_wrong_number_leaves_its_lines_open() {
        let bottom = STRAKES * ROW;
        let strakes = bottom + 10;
        for hopper in [0, 2000] {
            let ticked = |place, number: fn(u32) -> u32| ticked(hopper, place, number);
            assert_eq!(ticked(0, |z| z), [true; 4]);
            // each load of the last depth: greater, and smaller than the one above
            for load in Z + 1..ROW {
                let last = place(STRAKES, load, STRAKES - 1);
                assert_eq!(ticked(last, |load| load + 2), [true, false, true, true]);
                assert_eq!(ticked(last, |_| 1), [true, false, false, true]);
            }
            assert_eq!(ticked(bottom, |load| load + 1), [true, false, true, false]);
            assert_eq!(ticked(bottom + 9, |load| load + 1), [true, hopper == 0, true, hopper == 0]);
            assert_eq!(ticked(strakes + 2, |load| load + 1), [true, false, true, true]);
            assert_eq!(ticked(strakes + 2, |_| 0), [true, false, false, true]);
        }
    }
}
