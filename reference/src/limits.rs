//! Every limit of document 01, and of C-11 and C-13 to C-17 of document 02: sheets with the value at it, below it and above it, each with
//! the numbers due; 0 is acceptance. Pressures and reply lists of C-19 at, below and above their limits are given with every sheet.

use crate::inputs::{equal_strakes, sample};
use crate::sheet::{record, Silo};

/// A sheet and the number of its refusal, or 0: from the calls for loads, and from those that only tell a length.
#[derive(Clone)]
pub struct Due {
    pub sheet: Vec<u8>,
    pub loads: u64,
    pub length: u64,
}

impl Due {
    /// A sheet that breaks a rule and a later one, each 0 where there is none. The calls that only tell a length do not judge 20.
    pub fn of(sheet: Vec<u8>, rule: u64, later: u64) -> Due {
        Due { sheet, loads: rule, length: if rule == 20 { later } else { rule } }
    }
}

/// A sheet and the one rule that it breaks, or 0.
pub type Single = (Vec<u8>, u64);

impl From<Single> for Due {
    fn from((sheet, rule): Single) -> Due {
        Due::of(sheet, rule, 0)
    }
}

const MAX: u64 = u32::MAX as u64;

type Change = fn(&mut Silo, u64);

/// The sample with one number changed.
const NUMBERS: &[(Change, &[(u64, u64)])] = &[
    (
        |silo, n| silo.weight = n,
        &[
            (0, 7),
            (999, 7),
            (1_000, 0),
            (1_001, 0),
            (29_999, 0),
            (30_000, 0),
            (30_001, 7),
            (MAX, 7),
        ],
    ),
    (
        |silo, n| silo.ratio = n,
        &[(0, 7), (19, 7), (20, 0), (21, 0), (99, 0), (100, 0), (101, 7), (65_535, 7)],
    ),
    (
        |silo, n| silo.friction = n,
        &[(0, 7), (9, 7), (10, 0), (11, 0), (99, 0), (100, 0), (101, 7), (65_535, 7)],
    ),
    (|silo, n| silo.factor = n, FACTORS),
    (|silo, n| (silo.factor, silo.headroom) = (n, Some(2_000)), FACTORS),
    (|silo, n| (silo.factor, silo.section[0]) = (n, 8_000), FACTORS),
    (|silo, n| (silo.factor, silo.section[0]) = (n, 20_000), FACTORS),
    (|silo, n| silo.e_i = n, ECCENTRICITIES),
    (|silo, n| silo.e_o = n, ECCENTRICITIES),
    (
        |silo, n| (silo.hopper_height, silo.run) = (n, 1_000),
        &[(0, 9), (363, 9), (364, 0), (365, 0), (24_999, 0), (25_000, 0), (25_001, 9), (MAX, 9)],
    ),
    (
        |silo, n| (silo.hopper_height, silo.run) = (1_000, n),
        &[(0, 9), (1, 0), (2, 0), (2_498, 0), (2_499, 0), (2_500, 9), (1 << 31, 9), (MAX, 9)],
    ),
    (|silo, n| silo.run = n, &[(0, 0), (1, 9), (2, 9), (MAX, 9)]),
    (|silo, n| silo.hopper_height = n, &[(0, 0), (1, 9), (2, 9), (MAX, 9)]),
    (
        |silo, n| silo.depths = vec![n],
        &[(0, 0), (1, 0), (9_999, 0), (10_000, 0), (10_001, 11), (1 << 31, 11), (MAX, 11)],
    ),
    (
        |silo, n| silo.depths = vec![0, n],
        &[(0, 11), (1, 0), (2, 0), (9_999, 0), (10_000, 0), (10_001, 11), (MAX, 11)],
    ),
    (
        |silo, n| silo.depths = vec![4_999, n, 5_001],
        &[(0, 11), (4_998, 11), (4_999, 11), (5_000, 0), (5_001, 11), (5_002, 11), (MAX, 11)],
    ),
    (
        |silo, n| (silo.depths, silo.headroom) = (vec![0, n], Some(2_000)),
        &[(1, 0), (1_999, 0), (2_000, 0), (2_001, 0), (10_000, 0), (10_001, 11), (12_000, 11)],
    ),
    (
        |silo, n| (silo.depths, silo.headroom) = (vec![4_999, 5_000, 5_001], Some(n)),
        &[(4_998, 0), (4_999, 0), (5_000, 0), (5_001, 0), (5_002, 0)],
    ),
];

/// A blank C0 is accepted, 1 to 99 are not; what it means now and meant before, with the hundredth on either side.
const FACTORS: &[(u64, u64)] = &[
    (0, 0),
    (1, 7),
    (55, 7),
    (99, 7),
    (100, 0),
    (101, 0),
    (134, 0),
    (135, 0),
    (136, 0),
    (154, 0),
    (155, 0),
    (156, 0),
    (199, 0),
    (200, 0),
    (201, 7),
    (256, 7),
    (65_535, 7),
];

/// d_c is 5,000; four times 2^30 is 0 in 32 bits.
const ECCENTRICITIES: &[(u64, u64)] =
    &[(0, 0), (1_249, 0), (1_250, 0), (1_251, 8), (1 << 30, 8), ((1 << 30) + 1, 8), (MAX, 8)];

pub fn sheets() -> Vec<Due> {
    let values =
        [numbers(), eccentricities(), slopes(), strakes(), depths(), headrooms(), heights()];
    let values = values.concat();
    let long = long_bins(&values);
    let accepted =
        [factors(), lowest(), pages(), patches()].concat().into_iter().map(|silo| (silo, 0));
    let silos = [sides(), unequal(), values, whole_loads()].concat().into_iter().chain(accepted);
    let sheets = silos.map(|(silo, due)| (silo.sheet(), due));
    let damaged = [cut_or_extended(), kinds(), lengths()].concat();
    damaged.into_iter().chain(sheets).map(Due::from).chain(long).collect()
}

fn numbers() -> Vec<(Silo, u64)> {
    let mut silos = Vec::new();
    for (change, values) in NUMBERS {
        for (value, due) in *values {
            let mut silo = sample();
            change(&mut silo, *value);
            silos.push((silo, *due));
        }
    }
    silos
}

/// The sample with that section, and a wall and hopper of that height in all, the wall of equal strakes.
pub fn of_height(section: &[u64], height: u64, hopper: (u64, u64)) -> Silo {
    let foot = height.saturating_sub(hopper.0).clamp(200, 72_000);
    Silo {
        section: section.to_vec(),
        hopper_height: hopper.0,
        run: hopper.1,
        strakes: equal_strakes(foot),
        depths: vec![0, foot / 2, foot],
        ..sample()
    }
}

/// The same with that h under a headroom, the surface and the millimetre on either side listed; where no wall is so high, with less.
pub fn under_headroom(section: &[u64], height: u64, hopper: (u64, u64), g: u64) -> Silo {
    let silo = of_height(section, height + g, hopper);
    let mut depths = [silo.depths.clone(), vec![g.saturating_sub(1), g, g + 1]].concat();
    depths.retain(|depth| *depth <= silo.foot());
    depths.sort();
    depths.dedup();
    Silo { depths, headroom: Some(g), ..silo }
}

const FLAT: (u64, u64) = (0, 0);

/// Rule 6: each side of each shape, beside one that is not too unequal; outside the limits also beside one that is.
fn sides() -> Vec<(Silo, u64)> {
    let inside = [(500, 1_500), (501, 1_000), (49_999, 20_000), (50_000, 16_667)];
    let outside = [0, 499, 50_001, 65_536 + 5_000, 1 << 31, MAX];
    let outside = outside.into_iter().flat_map(|side| [(side, 1_400), (side, 20_000)]);
    let mut silos = Vec::new();
    for (side, other) in inside.into_iter().chain(outside) {
        let due = if (500..=50_000).contains(&side) { 0 } else { 6 };
        for section in [vec![side], vec![side, other], vec![other, side], vec![side, side]] {
            let d_c = section.iter().fold(50_000, |least, side| *side.min(&least));
            silos.push((of_height(&section, 2 * d_c, FLAT), due));
        }
    }
    silos
}

/// Rule 20: either side long, equal to the short one, at three times it and next to that, at six times, and as long as there is; level with
/// the brim and under headrooms. Three times 16,667 is over every side, and three times 21,846 is 2 in 16 bits.
fn unequal() -> Vec<(Silo, u64)> {
    let mut silos = Vec::new();
    let narrow = [500, 501, 1_000, 5_000, 9_999, 16_665, 16_666].map(|short| (short, 20));
    let wide = [16_667, 20_000, 21_845, 21_846, 50_000].map(|short| (short, 0));
    for (short, longest) in narrow.into_iter().chain(wide) {
        let most = 3 * short;
        let longs = [
            (short, 0),
            (most - 1, 0),
            (most, 0),
            (most + 1, 20),
            (2 * most, 20),
            (50_000, longest),
        ];
        for (long, due) in longs.into_iter().filter(|(long, _)| *long <= 50_000) {
            for section in [vec![short, long], vec![long, short]] {
                let each = each_headroom(&section, (2 * short).min(40_000), FLAT);
                silos.extend(each.into_iter().map(|silo| (silo, due)));
            }
        }
    }
    silos
}

/// Silos with the number due, as long bins where they are narrow enough: the length calls alone answer it.
fn long_bins(silos: &[(Silo, u64)]) -> Vec<Due> {
    let narrow = silos.iter().filter(|(silo, _)| silo.d_c() <= 16_666);
    let long = |silo: &Silo| Silo { section: vec![silo.d_c(), 50_000], ..silo.clone() };
    narrow.map(|(silo, due)| Due::of(long(silo).sheet(), 20, *due)).collect()
}

/// Rule 8 where d_c is no multiple of 4, and is the shorter side.
fn eccentricities() -> Vec<(Silo, u64)> {
    let sections = [vec![5_001], vec![5_002], vec![5_003], vec![5_001, 9_000], vec![9_000, 5_001]];
    let mut silos = Vec::new();
    for section in sections {
        for (e, due) in [(1_249, 0), (1_250, 0), (1_251, 8), (1_252, 8)] {
            let silo = Silo { section: section.clone(), ..sample() };
            silos.push((Silo { e_i: e, ..silo.clone() }, due));
            silos.push((Silo { e_o: e, ..silo }, due));
        }
    }
    silos
}

/// Rule 9: the flattest hopper and the next below it, for many runs, and for those where 1,000,000·H comes closest to 363,971·r on either
/// side; and the longest run for an odd and an even d_c.
fn slopes() -> Vec<(Silo, u64)> {
    let mut silos = Vec::new();
    let mut runs: Vec<u64> = (1..25_000).collect();
    runs.sort_by_key(|run| 363_971 * run % 1_000_000);
    let closest = [&runs[..20], &runs[runs.len() - 20..]].concat();
    for run in (1..2_500).step_by(49).chain(closest) {
        let flattest = (363_971 * run).div_ceil(1_000_000);
        let d_c = (2 * run + 1).max(5_000);
        for (height, due) in [(flattest - 1, 9), (flattest, 0)] {
            let all = (2 * d_c).min(72_000) + height;
            silos.push((of_height(&[d_c], all, (height, run)), due));
        }
    }
    for (d_c, longest) in [(5_000, 2_499), (5_001, 2_500), (5_002, 2_500)] {
        for (run, due) in [(longest, 0), (longest + 1, 9)] {
            let section = vec![9_000, d_c];
            silos.push((Silo { section, hopper_height: 2_000, run, ..sample() }, due));
        }
    }
    silos
}

/// Rule 10 at each place of walls of 1, 5 and 24 strakes.
fn strakes() -> Vec<(Silo, u64)> {
    let one = of_height(&[500], 1_600, (600, 100));
    let most = Silo { section: vec![12_000], strakes: vec![2_000; 24], ..sample() };
    let values = [0, 199, 200, 201, 2_999, 3_000, 3_001, 65_535];
    let mut silos = Vec::new();
    for wall in [one, sample(), most] {
        for place in 0..wall.strakes.len() {
            for value in values {
                let mut silo = Silo { depths: vec![0], ..wall.clone() };
                silo.strakes[place] = value;
                silos.push((silo, if (200..=3_000).contains(&value) { 0 } else { 10 }));
            }
        }
    }
    silos
}

/// Rule 11 at each place of 200 depths, and at V.
fn depths() -> Vec<(Silo, u64)> {
    let all = Silo { depths: (0..200).map(|i| 50 * (i + 1)).collect(), ..sample() };
    let mut silos = vec![(all.clone(), 0)];
    for place in 1..200 {
        let mut silo = all.clone();
        silo.depths[place] = silo.depths[place - 1];
        silos.push((silo, 11));
    }
    for (last, due) in [(9_999, 0), (10_000, 0), (10_001, 11)] {
        let mut silo = all.clone();
        silo.depths[199] = last;
        silos.push((silo, due));
    }
    silos
}

/// Rule 17: walls from the lowest to the highest, over a flat floor and a hopper.
fn headrooms() -> Vec<(Silo, u64)> {
    let mut silos = Vec::new();
    for foot in [200, 3_000, 10_000, 72_000] {
        for hopper in [FLAT, (1_000, 500)] {
            let wall = of_height(&[9_000], foot + hopper.0, hopper);
            let below = [0, 1, 199, foot / 2, foot - 2, foot - 1, 65_535, 65_536, 65_537];
            let above = [foot, foot + 1, 2 * foot, foot + 65_536, 1 << 31, MAX - 1, MAX];
            for g in below.into_iter().chain(above) {
                let due = if g < foot { 0 } else { 17 };
                silos.push((Silo { headroom: Some(g), ..wall.clone() }, due));
            }
        }
    }
    silos
}

/// Odd and even d_c that a wall can be ten times as high as.
const WIDTHS: [u64; 7] = [500, 501, 1_999, 2_000, 5_000, 5_001, 7_199];

/// A circle, and rectangles with the shorter side first and second, the longer one up to three times as long.
fn sections(d_c: u64) -> [Vec<u64>; 3] {
    let longer = (3 * d_c).min(9_000).max(d_c);
    [vec![d_c], vec![d_c, longer], vec![longer, d_c]]
}

/// Headrooms that decide a limit of h.
const HEADROOMS: [u64; 3] = [1, 300, 20_000];

/// Silos of that h, level with the brim and under each headroom, where 24 strakes are enough.
fn each_headroom(section: &[u64], height: u64, hopper: (u64, u64)) -> Vec<Silo> {
    let mut silos = vec![of_height(section, height, hopper)];
    silos.extend(HEADROOMS.map(|g| under_headroom(section, height, hopper, g)));
    silos.retain(|silo| silo.height() == height);
    silos
}

/// Rule 12, for odd and even d_c, the shorter side first and second, with and without a hopper and a headroom; and the widest that a wall
/// of 24 strakes makes too high, over a hopper.
fn heights() -> Vec<(Silo, u64)> {
    let mut silos = about_ten(&[9_699], 9_699, (24_995, 1_000));
    for d_c in WIDTHS {
        for section in sections(d_c) {
            for hopper in [FLAT, (200, 50)] {
                silos.extend(about_ten(&section, d_c, hopper));
            }
        }
    }
    silos
}

/// h at 10·d_c, and on either side.
fn about_ten(section: &[u64], d_c: u64, hopper: (u64, u64)) -> Vec<(Silo, u64)> {
    let heights = [(10 * d_c - 1, 0), (10 * d_c, 12), (10 * d_c + 1, 12)];
    let silos = heights.map(|(height, due)| {
        each_headroom(section, height, hopper).into_iter().map(move |silo| (silo, due))
    });
    silos.into_iter().flatten().collect()
}

/// Limits of the discharge factors, which no rule judges: h = d_c and 2h = 3·d_c, or next to them, for odd and even d_c up to the widest.
fn factors() -> Vec<Silo> {
    let mut silos = Vec::new();
    for d_c in WIDTHS.into_iter().chain([47_999, 48_000, 48_001, 49_999, 50_000]) {
        let slender = (3 * d_c).div_ceil(2);
        for height in [d_c - 1, d_c, d_c + 1, slender - 1, slender, slender + 1] {
            silos.extend(bins(d_c, height));
        }
    }
    silos
}

/// Bins of that width and height over a flat floor, a low hopper, and one that makes a wall of d_c slender; level with the brim with C0
/// blank, at its ends and as in the sample, and under headrooms; e at its limit.
fn bins(d_c: u64, height: u64) -> Vec<Silo> {
    let mut silos = Vec::new();
    for section in sections(d_c) {
        for hopper in [FLAT, (200, 50), (d_c / 2, d_c / 4)] {
            for silo in each_headroom(&section, height, hopper) {
                let silo = Silo { e_o: d_c / 4, ..silo };
                if silo.headroom.is_none() {
                    silos.extend([0, 100, 200].map(|factor| Silo { factor, ..silo.clone() }));
                }
                silos.push(silo);
            }
        }
    }
    silos
}

/// The lowest wall there is, of one strake, under the widest section and the narrowest, where hoppers alone make it slender.
fn lowest() -> Vec<Silo> {
    let lowest = |section: &[u64], hopper: (u64, u64)| of_height(section, 200 + hopper.0, hopper);
    let mut silos = Vec::new();
    for section in [vec![50_000], vec![50_000, 50_000]] {
        silos.extend([FLAT, (25_000, 24_999)].map(|hopper| lowest(&section, hopper)));
    }
    for section in [vec![500], vec![500, 1_500], vec![1_500, 500]] {
        let hoppers = [0, 299, 300, 301, 549, 550, 551].map(|height| (height, height.min(200)));
        silos.extend(hoppers.map(|hopper| lowest(&section, hopper)));
    }
    silos
}

/// Pages of the fewest and the most lines, with the least and the greatest numbers, the depths where z has a digit more among them: every
/// size at its lower end, and at its upper one, where P_w has eight digits; over a flat floor and over a hopper.
pub fn pages() -> Vec<Silo> {
    let least = Silo { section: vec![500], weight: 1_000, ratio: 20, friction: 10, ..sample() };
    let greatest = Silo { section: vec![50_000], weight: 30_000, ratio: 100, ..sample() };
    let greatest = Silo { friction: 100, factor: 200, e_i: 12_500, ..greatest };
    let ends = [(Silo { factor: 100, ..least }, 200, (1, 1)), (greatest, 3_000, (25_000, 24_999))];
    let mut silos = Vec::new();
    for (silo, height, hopper) in ends {
        for (count, (hopper_height, run)) in [(1, FLAT), (1, hopper), (24, FLAT), (24, hopper)] {
            let wall = Silo { strakes: vec![height; count], hopper_height, run, ..silo.clone() };
            let foot = wall.foot();
            let tens = [0, 1, 9, 10, 99, 100, 999, 1_000, 9_999, 10_000, foot];
            let tens = tens.into_iter().filter(|z| *z <= foot).collect();
            let most = (0..200).map(|i| i * foot / 199).collect();
            let listed = [vec![0], vec![foot], tens, most];
            silos.extend(listed.map(|depths| Silo { depths, ..wall.clone() }));
        }
    }
    silos
}

/// The greatest patch that there is round a shell, at many depths, where a billionth in a cosine counts most; and the widest square.
pub fn patches() -> Vec<Silo> {
    let greatest = Silo {
        section: vec![50_000],
        weight: 30_000,
        ratio: 100,
        friction: 10,
        factor: 200,
        e_o: 12_500,
        hopper_height: 25_000,
        run: 24_999,
        strakes: vec![3_000; 24],
        ..sample()
    };
    let square = Silo { section: vec![50_000; 2], ..greatest.clone() };
    let depths = (0..64).map(|i| vec![greatest.foot() - 100 * i]);
    depths.map(|depths| Silo { depths, ..greatest.clone() }).chain([square]).collect()
}

/// No rule's limit but a rounding's: 3·R·γ·1.15·Ks·sin²α is a whole number, 1,725 for each 1,000 N/m³, and so is 1.0·p_hf.
fn whole_loads() -> Vec<(Silo, u64)> {
    let hoppers = [1, 2, 1_000, 2_000, 3_000];
    let silo = |weight: u64, size: u64| {
        let silo = of_height(&[8_000], 20_000, (size, size));
        (Silo { weight: 1_000 * weight, factor: 100, ..silo }, 0)
    };
    (1..=30).flat_map(|weight| hoppers.map(|size| silo(weight, size))).collect()
}

/// The sample with a headroom, and as many strakes and depths as there may be.
fn longest() -> Silo {
    Silo { strakes: vec![2_000; 24], depths: (0..200).collect(), headroom: Some(100), ..sample() }
}

/// Rules 1, 2 and 5: a short sheet and the longest there is, of seven records, cut short at every byte, whole, and longer; the same of six
/// records and longer. The sixth record may be the last.
fn cut_or_extended() -> Vec<Single> {
    let short = Silo { headroom: Some(1_000), ..sample() };
    let zeros = [(4, 3), (1_024, 3), (1_025, 1)].map(|(length, due)| (vec![0; length], due));
    let mut sheets = zeros.to_vec();
    for silo in [short, longest()] {
        let seven = Silo { section: vec![5_000, 6_000], ..silo };
        let six = Silo { headroom: None, ..seven.clone() }.sheet();
        let seven = seven.sheet();
        let whole = [six.len(), seven.len()];
        let due = |length: usize| if whole.contains(&length) { 0 } else { 2 };
        sheets.extend((0..=seven.len()).map(|length| (seven[..length].to_vec(), due(length))));
        sheets.extend(extended(&seven, |_| 5));
        sheets.extend(extended(&six, |extra| if extra < 4 { 2 } else { 3 }));
    }
    sheets
}

/// A sheet with bytes of 0 behind it, and what is due to so many; too long a sheet.
fn extended(whole: &[u8], due: impl Fn(usize) -> u64) -> Vec<Single> {
    let with = |length: usize, due: u64| {
        let mut sheet = whole.to_vec();
        sheet.resize(length, 0);
        (sheet, due)
    };
    let extra = (1..=12).chain([1_023 - whole.len(), 1_024 - whole.len()]);
    let left_over = extra.map(|extra| with(whole.len() + extra, due(extra)));
    left_over.chain([with(1_025, 1), with(65_536, 1)]).collect()
}

/// A sheet's records, kind and payload.
fn records(sheet: &[u8]) -> Vec<(u16, Vec<u8>)> {
    let mut rest = sheet;
    let mut records = Vec::new();
    while let [low, high, kind_low, kind_high, after @ ..] = rest {
        let length = u16::from_le_bytes([*low, *high]).into();
        records.push((u16::from_le_bytes([*kind_low, *kind_high]), after[..length].to_vec()));
        rest = &after[length..];
    }
    records
}

fn joined(records: &[(u16, Vec<u8>)]) -> Vec<u8> {
    records.iter().flat_map(|(kind, payload)| record(*kind, payload.clone())).collect()
}

/// Rule 3: each record under every small kind, and under kinds that differ in the upper byte. A circle under a rectangle's kind, or the
/// other way round, has a wrong length.
fn kinds() -> Vec<Single> {
    let mut sheets = Vec::new();
    let rectangle = Silo { section: vec![5_000, 6_000], headroom: Some(1_000), ..sample() };
    for silo in [sample(), rectangle] {
        let whole = records(&silo.sheet());
        for place in 0..whole.len() {
            let right = whole[place].0;
            for kind in (0..10).chain([255, 256 + right, 0x8000 + right, 65_535]) {
                let mut changed = whole.clone();
                changed[place].0 = kind;
                let due = match () {
                    () if kind == right => 0,
                    () if place == 0 && (1..=2).contains(&kind) => 4,
                    () => 3,
                };
                sheets.push((joined(&changed), due));
            }
        }
    }
    sheets
}

/// Rule 4: payloads of each kind, of every length round those allowed.
fn lengths() -> Vec<Single> {
    // Bytes of a number or a payload, and how many of them at most.
    let allowed = [(4, 1), (10, 1), (8, 1), (8, 1), (2, 24), (4, 200), (4, 1)];
    let mut sheets = stated_lengths();
    for length in (0..60).chain(790..810) {
        for (place, (width, most)) in allowed.into_iter().enumerate() {
            let fits = length % width == 0 && (1..=most).contains(&(length / width));
            sheets.push(resized(place, length, if fits { 0 } else { 4 }));
        }
    }
    sheets
}

/// The same of the headroom, stated alone: 4 and 8 bytes are there.
fn stated_lengths() -> Vec<Single> {
    let six = sample().sheet();
    let mut sheets = Vec::new();
    for length in (0..=20).chain([255, 256, 260, 1_024, 0x8004, 65_535]) {
        for present in [4, 8] {
            let due = match (length, present) {
                (4, 4) => 0,
                (4, _) => 5,
                _ => 4,
            };
            let header = [u16::to_le_bytes(length), 8u16.to_le_bytes()].concat();
            sheets.push(([&six[..], &header, &vec![0; present]].concat(), due));
        }
    }
    sheets
}

/// The sample with depth 0 alone and a headroom, and one payload from a sheet of the longest ones, cut to a length or extended.
fn resized(place: usize, length: usize, due: u64) -> Single {
    let mut changed = records(&Silo { depths: vec![0], headroom: Some(1_000), ..sample() }.sheet());
    changed[place] = records(&longest().sheet()).swap_remove(place);
    changed[place].1.resize(length, 0);
    (joined(&changed), due)
}
