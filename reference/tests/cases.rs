//! The cases that document 01 writes down, as C-11 and C-14 of document 02 move them, the same under the headroom of C-13, the sides of
//! C-17, and the places of C-18; each sheet also compared as any other.

use reference::answers::{COLUMNS, P_HE, P_HF, P_P, P_WE, P_WF, Z};
use reference::compare::Comparison;
use reference::formulas::{self, Discharge};
use reference::fraction::{fraction, whole};
use reference::inputs::sample;
use reference::limits::{of_height, under_headroom, Due};
use reference::linked::Linked;
use reference::runs;
use reference::sheet::{record, Silo};

fn with(change: impl FnOnce(&mut Silo)) -> Silo {
    let mut silo = sample();
    change(&mut silo);
    silo
}

/// The sample with a top strake of 200, and equal ones below it that make up a height.
fn from_low_strake(height: u64) -> Silo {
    let below = of_height(&[5_000], height - 200, (0, 0)).strakes;
    with(|silo| silo.strakes = [vec![200], below].concat())
}

#[test]
fn the_loads_of_the_sample() {
    assert!(formulas::before_bracket(&sample())[0] == whole(31_250), "P for p_hf");
    filling_of_the_sample(&sample(), 0, 5_000);
}

/// The same product and width with the surface 3,000 under the brim.
#[test]
fn the_loads_of_the_sample_under_a_headroom() {
    let silo = with(|silo| (silo.depths, silo.headroom) = (vec![2_999, 8_000], Some(3_000)));
    filling_of_the_sample(&silo, 2_999, 8_000);
}

/// No load at the first depth, those of the sample at 5,000 at the second; both depths first, then p_hf at both, and so on.
fn filling_of_the_sample(silo: &Silo, above: u64, below: u64) {
    let mut comparison = Comparison::with(&Linked);
    comparison.accepted(silo).unwrap();
    let list = comparison.answers(silo).unwrap().list(COLUMNS);
    assert_eq!(list[..2], [above, below]);
    let above_surface = [2, 4, 6, 8, 10, 12, 14].map(|place| list[place]);
    assert_eq!(above_surface, [0; 7], "no load above the surface");
    for (place, lower) in [(3, 17_597), (5, 7_345), (7, 33_119), (9, 21_541)] {
        let given = list[place];
        assert!((lower..=lower + 1).contains(&given), "number {place} at {below} is {given}");
    }
}

/// p_he and p_p for p_hf 17,597, and p_we for p_wf 7,345: by the formulas, and on the list at 5,000 where it has these pressures.
fn gives(silo: &Silo, p_he: u64, p_p: u64, p_we: u64) {
    let Discharge { c_h, c_w } = Discharge::of(silo);
    assert!(whole(17_597).times(&c_h).rounds_up_to(p_he), "p_hf 17,597");
    assert!(whole(p_he).times(&formulas::patch(silo)).rounds_up_to(p_p), "p_he {p_he}");
    assert!(whole(7_345).times(&c_w).rounds_up_to(p_we), "p_wf 7,345");
    let row = Comparison::with(&Linked).answers(silo).unwrap().rows[1];
    assert_eq!(row[Z], 5_000);
    assert!(row[P_HF] != 17_597 || [row[P_HE], row[P_P]] == [p_he, p_p], "p_hf 17,597");
    assert!(row[P_WF] != 7_345 || row[P_WE] == p_we, "p_wf 7,345");
}

#[test]
fn the_loads_made_from_given_pressures() {
    gives(&sample(), 24_636, 4_928, 8_080);
}

#[test]
fn the_loads_made_from_given_pressures_at_7_499() {
    for silo in [of_height(&[5_000], 7_499, (0, 0)), from_low_strake(7_499)] {
        let silo = Silo { depths: vec![0, 5_000], ..silo };
        let above = fraction(2_499, 5_000);
        let c_h = whole(1).plus(&fraction(8, 10).times(&above));
        let c_w = whole(1).plus(&fraction(2, 10).times(&above));
        assert!(Discharge::of(&silo) == Discharge { c_h, c_w });
        gives(&silo, 24_633, 4_927, 8_080);
    }
}

#[test]
fn accepted_and_refused_as_written() {
    let hopper = |height| with(|silo| (silo.run, silo.hopper_height) = (1_000, height));
    let height = |height| of_height(&[5_000], height, (0, 0));
    let under = |height, g| under_headroom(&[5_000], height, (0, 0), g);
    let blank = |silo| Silo { factor: 0, ..silo };
    let sides = |a, b| with(|silo| silo.section = vec![a, b]);
    let silos = [
        (height(200), 0),
        (height(4_999), 0),
        (height(5_000), 0),
        (height(5_001), 0),
        (height(7_499), 0),
        (height(7_500), 0),
        (height(49_999), 0),
        (height(50_000), 12),
        (from_low_strake(7_499), 0),
        (from_low_strake(7_500), 0),
        (from_low_strake(49_999), 0),
        (from_low_strake(50_000), 12),
        (with(|silo| silo.e_i = 1_250), 0),
        (with(|silo| silo.e_o = 1_250), 0),
        (with(|silo| silo.e_i = 1_251), 8),
        (with(|silo| silo.e_o = 1_251), 8),
        (hopper(364), 0),
        (hopper(363), 9),
        (with(|silo| silo.friction = 10), 0),
        (with(|silo| silo.friction = 9), 7),
        (with(|silo| silo.friction = 0), 7),
        (with(|silo| silo.factor = 99), 7),
        (blank(sample()), 0),
        (blank(height(5_000)), 0),
        (blank(height(7_499)), 0),
        (blank(height(7_500)), 0),
        (blank(under(7_499, 2_000)), 0),
        (with(|silo| silo.depths = vec![10_000]), 0),
        (with(|silo| silo.depths = vec![10_001]), 11),
        (under(10_000, 0), 0),
        (under(49_999, 5_000), 0),
        (under(50_000, 5_000), 12),
        (under(7_499, 2_000), 0),
        (under(7_500, 2_000), 0),
        (sides(5_000, 5_000), 0),
        (sides(5_000, 15_000), 0),
        (sides(15_000, 5_000), 0),
        (sides(5_000, 15_001), 20),
        (sides(15_001, 5_000), 20),
        (sides(5_000, 50_001), 6),
        (with(|silo| silo.headroom = Some(9_999)), 0),
        (with(|silo| silo.headroom = Some(10_000)), 17),
        (with(|silo| silo.headroom = Some(5_000)), 0),
        (with(|silo| (silo.depths, silo.headroom) = (vec![10_000], Some(1))), 0),
        (with(|silo| (silo.depths, silo.headroom) = (vec![10_001], Some(1))), 11),
    ];
    let behind = [
        (sample(), vec![0], 2),
        (sample(), record(7, vec![0; 4]), 3),
        (sample(), record(8, vec![0; 2]), 4),
        (with(|silo| silo.headroom = Some(0)), vec![0], 5),
    ];
    let whole = silos.map(|(silo, due)| (silo.sheet(), due)).into_iter();
    let longer = behind.map(|(silo, bytes, due)| ([silo.sheet(), bytes].concat(), due));
    let mut sheets: Vec<Due> = whole.chain(longer).map(Due::from).collect();
    sheets.push(Due::of(Silo { friction: 9, ..sides(5_000, 15_001) }.sheet(), 20, 7));
    let mut comparison = Comparison::with(&Linked);
    runs::table(&mut comparison, &sheets).unwrap();
    comparison.report([2, 3, 4, 5, 6, 20, 7, 8, 9, 11, 17, 12, 14, 18]);
}

/// The lists with a blank factor and with another.
fn beside_blank(factor: u64) -> [Vec<u64>; 2] {
    let mut comparison = Comparison::with(&Linked);
    let silos = [0, factor].map(|factor| with(|silo| silo.factor = factor));
    silos.map(|silo| comparison.answers(&silo).unwrap().list(COLUMNS))
}

#[test]
fn a_blank_factor_acts_as_155() {
    let [blank, written] = beside_blank(155);
    assert_eq!(blank, written);
    gives(&with(|silo| silo.factor = 0), 27_276, 5_456, 8_080);
}

/// p_he, p_p and the strakes are greater, the filling, p_we and the floor are not.
#[test]
fn a_blank_factor_no_longer_acts_as_135() {
    let [blank, written] = beside_blank(135);
    let greater: Vec<usize> = (0..blank.len()).filter(|i| blank[*i] > written[*i]).collect();
    assert_eq!(greater, [11, 15, 26, 27, 28, 29, 30]);
    assert!((0..blank.len()).all(|i| greater.contains(&i) || blank[i] == written[i]));
    gives(&with(|silo| silo.factor = 135), 23_756, 4_752, 8_080);
}
