//! Random and extreme silos, and damaged sheets, from one seed.

use crate::sheet::{parse, Silo};

/// What `within` gives: any number, and each end one time in eight; an end alone; or a round number where there is one.
#[derive(Clone, Copy)]
enum Numbers {
    Any,
    Ends,
    Round,
}

/// Numbers that are the same on every run (splitmix64).
pub struct Random {
    state: u64,
    numbers: Numbers,
}

impl Random {
    pub fn new(seed: u64) -> Random {
        Random { state: seed, numbers: Numbers::Any }
    }

    /// Those that go with some bytes (FNV-1a).
    pub fn of(bytes: &[u8]) -> Random {
        let mixed = |seed: u64, byte: &u8| (seed ^ u64::from(*byte)).wrapping_mul(0x100_0000_01B3);
        Random::new(bytes.iter().fold(0xCBF2_9CE4_8422_2325, mixed))
    }

    fn next(&mut self) -> u64 {
        self.state = self.state.wrapping_add(0x9E37_79B9_7F4A_7C15);
        let mut n = self.state;
        n = (n ^ n >> 30).wrapping_mul(0xBF58_476D_1CE4_E5B9);
        n = (n ^ n >> 27).wrapping_mul(0x94D0_49BB_1331_11EB);
        n ^ n >> 31
    }

    pub fn below(&mut self, limit: u64) -> u64 {
        self.next() % limit
    }

    pub fn one_in(&mut self, n: u64) -> bool {
        self.below(n) == 0
    }

    /// From low to high.
    fn within(&mut self, low: u64, high: u64) -> u64 {
        let any = low + self.below(high - low + 1);
        match (self.numbers, self.below(8)) {
            (Numbers::Ends, n) => [low, high][n as usize % 2],
            (Numbers::Round, _) => round(any, low),
            (Numbers::Any, 0) => low,
            (Numbers::Any, 1) => high,
            (Numbers::Any, _) => any,
        }
    }

    pub fn pick<T: Clone>(&mut self, of: &[T]) -> T {
        of[self.below(of.len() as u64) as usize].clone()
    }
}

/// The roundest number from low to n: thousands, else hundreds, else tens, else n.
fn round(n: u64, low: u64) -> u64 {
    let rounded = [1_000, 100, 10].map(|unit| n - n % unit);
    rounded.into_iter().find(|round| *round >= low.max(1)).unwrap_or(n)
}

/// The silo of document 01's cases: circle 5,000, γ 9,000, Ks 50, μ 40, C0 140, e 0, flat; five strakes of 2,000; depths 0 and 5,000; level
/// with the brim.
pub fn sample() -> Silo {
    Silo {
        section: vec![5_000],
        weight: 9_000,
        ratio: 50,
        friction: 40,
        factor: 140,
        e_i: 0,
        e_o: 0,
        hopper_height: 0,
        run: 0,
        strakes: vec![2_000; 5],
        depths: vec![0, 5_000],
        headroom: None,
    }
}

/// A silo that is accepted.
pub fn silo(random: &mut Random) -> Silo {
    loop {
        random.numbers = match random.below(8) {
            0 => Numbers::Ends,
            1 => Numbers::Round,
            _ => Numbers::Any,
        };
        let silo = candidate(random);
        random.numbers = Numbers::Any;
        if parse(&silo.sheet()) == Ok(silo.clone()) {
            return Silo { depths: depths(random, &silo), ..silo };
        }
    }
}

/// A long bin, which is refused for loads alone: an accepted silo that leaves room for a side of over three times d_c, with such a side.
pub fn long(random: &mut Random) -> Silo {
    loop {
        let silo = silo(random);
        let short = silo.d_c();
        if 3 * short < 50_000 {
            let long = random.within(3 * short + 1, 50_000);
            return Silo { section: sides(random, short, long), ..silo };
        }
    }
}

/// A rectangle with either side first.
fn sides(random: &mut Random, short: u64, long: u64) -> Vec<u64> {
    random.pick(&[vec![short, long], vec![long, short]])
}

/// A silo with depth 0 alone.
fn candidate(random: &mut Random) -> Silo {
    let shorter = match random.below(3) {
        0 => random.within(500, 3_000),
        1 => random.within(500, 12_000),
        _ => random.within(500, 50_000),
    };
    let longer = random.within(shorter, (3 * shorter).min(50_000));
    let section = random.pick(&[vec![shorter], vec![shorter, longer], vec![longer, shorter]]);
    let d_c = shorter;
    let (hopper_height, run) = hopper(random, d_c);
    let (strakes, headroom) = wall(random, d_c, hopper_height);
    let eccentricity = [0, random.within(0, d_c / 4), random.within(0, d_c / 4)];
    Silo {
        section,
        weight: random.within(1_000, 30_000),
        ratio: random.within(20, 100),
        friction: random.within(10, 100),
        factor: factor(random),
        e_i: random.pick(&eccentricity),
        e_o: random.pick(&eccentricity),
        hopper_height,
        run,
        strakes,
        depths: vec![0],
        headroom,
    }
}

/// C0, blank one time in four.
fn factor(random: &mut Random) -> u64 {
    if random.one_in(4) {
        0
    } else {
        random.within(100, 200)
    }
}

/// Height and run: a flat floor, any hopper, or one of a few millimetres, where loads are often whole numbers before any rounding.
fn hopper(random: &mut Random, d_c: u64) -> (u64, u64) {
    let (longest, highest) = match random.below(8) {
        0..=3 => return (0, 0),
        4 => (4, 8),
        _ => ((d_c - 1) / 2, 25_000),
    };
    let run = random.within(1, longest);
    let flattest = (363_971 * run).div_ceil(1_000_000);
    (random.within(flattest, highest), run)
}

/// h of a slender silo about half of the time; else squat, low, or a limit of the discharge factors and the millimetre on either side.
fn height(random: &mut Random, d_c: u64) -> u64 {
    let slender = (3 * d_c).div_ceil(2);
    match random.below(8) {
        0..=2 => random.within(slender, (10 * d_c - 1).min(97_000)),
        3..=5 => random.within(d_c, slender),
        6 => random.within(200, d_c),
        _ => random.pick(&[d_c, slender]) + random.below(3) - 1,
    }
}

/// None half of the time; else 0, some millimetres, some metres, or as much as the highest wall has.
fn headroom(random: &mut Random) -> Option<u64> {
    match random.below(16) {
        0..=7 => None,
        8 => Some(0),
        9..=10 => Some(random.within(1, 64)),
        11..=14 => Some(random.within(1, 5_000)),
        _ => Some(random.within(5_000, 71_999)),
    }
}

/// Strakes that make up such an h over the hopper and under a headroom, where 1 to 24 of them can; the headroom itself, now and then all
/// but a few millimetres of the wall.
fn wall(random: &mut Random, d_c: u64, hopper_height: u64) -> (Vec<u64>, Option<u64>) {
    let (height, headroom) = (height(random, d_c), headroom(random));
    let filled = height.saturating_sub(hopper_height);
    let foot = (filled + headroom.unwrap_or(0)).clamp(200, 72_000);
    let nearly_all = random.one_in(16);
    let headroom = headroom.map(|g| if nearly_all { foot - 1 - random.below(64) } else { g });
    (strakes(random, foot), headroom)
}

/// Any number of strakes that can make up a wall, of any heights.
fn strakes(random: &mut Random, foot: u64) -> Vec<u64> {
    let mut left = foot;
    let count = random.within(left.div_ceil(3_000), (left / 200).min(24));
    let mut heights = Vec::new();
    for after in (0..count).rev() {
        let lowest = left.saturating_sub(3_000 * after).max(200);
        let highest = (left - 200 * after).min(3_000);
        let height = random.within(lowest, highest);
        heights.push(height);
        left -= height;
    }
    heights
}

/// The fewest equal strakes of a wall, to a millimetre.
pub fn equal_strakes(foot: u64) -> Vec<u64> {
    let count = foot.div_ceil(3_000);
    (0..count).map(|i| (foot + i) / count).collect()
}

/// Depths with the ends, lower edges, the surface and neighbouring millimetres among them.
pub fn depths(random: &mut Random, silo: &Silo) -> Vec<u64> {
    let foot = silo.foot();
    let count = if random.one_in(40) { 200 } else { 1 + random.below(9) };
    let mut depths = Vec::new();
    while depths.len() < count as usize {
        let depth = match random.below(9) {
            0 => random.below(foot.min(64)),
            1 => random.pick(&silo.edges()),
            2 => depths.last().map_or(0, |depth| depth + 1),
            3 => {
                let load = random.below(4);
                let some = (0..2_000).map(|_| silo.g() + 1 + random.below(silo.load_depth(foot)));
                just_above_whole(silo, load, some)
            }
            4 => (silo.g() + random.below(3)).saturating_sub(1),
            _ => random.within(0, foot),
        };
        depths.push(depth.min(foot));
    }
    depths.sort();
    depths.dedup();
    depths
}

/// Of some depths, the one where a load is the least above a whole number: p_hf, p_vf, p_wf or P_w. What is rounded down a little there is
/// below its exact value. Doubles are good enough to choose by.
fn just_above_whole(silo: &Silo, load: u64, depths: impl Iterator<Item = u64>) -> u64 {
    let (a, b) = (silo.a() as f64, silo.b() as f64);
    let (ratio, friction) = (silo.ratio as f64 / 100.0, silo.friction as f64 / 100.0);
    let radius = a * b / (a + b) / 2_000.0;
    let (ratio, friction) = match load {
        0 => (1.15 * ratio, 0.9 * friction),
        1 => (0.9 * ratio, 0.9 * friction),
        _ => (1.15 * ratio, 1.15 * friction),
    };
    let z0 = radius / (ratio * friction);
    let value = |depth: u64| {
        let z = silo.load_depth(depth) as f64 / 1_000.0;
        let bracket = 1.0 - (-z / z0).exp();
        silo.weight as f64
            * match load {
                0 => radius / friction * bracket,
                1 => radius / (friction * ratio) * bracket,
                2 => radius * bracket,
                _ => radius * (z - z0 * bracket),
            }
    };
    let nearest = depths.map(|depth| (value(depth).fract(), depth));
    nearest.min_by(|one, other| one.0.total_cmp(&other.0)).map_or(0, |(_, depth)| depth)
}

/// A wide and high silo with heavy contents and little friction, where an error in e^-q counts most, at the depths where each load is the
/// least above a whole number among all millimetres.
pub fn heavy(random: &mut Random) -> Silo {
    let mut silo = Silo {
        section: vec![random.within(20_000, 50_000)],
        weight: random.within(25_000, 30_000),
        ratio: random.within(20, 100),
        friction: random.within(10, 14),
        factor: factor(random),
        strakes: vec![3_000; 24],
        headroom: headroom(random),
        ..sample()
    };
    let below = silo.g() + 1..=silo.foot();
    silo.depths = (0..4).map(|load| just_above_whole(&silo, load, below.clone())).collect();
    silo.depths.sort();
    silo.depths.dedup();
    silo
}

/// Another accepted silo with the same section and product, another h and headroom, and load depths beside the first one's.
pub fn sibling(random: &mut Random, silo: &Silo) -> Silo {
    loop {
        let mut sibling = Silo { depths: vec![0], ..silo.clone() };
        sibling.e_o = random.within(0, silo.d_c() / 4);
        (sibling.hopper_height, sibling.run) = hopper(random, silo.d_c());
        (sibling.strakes, sibling.headroom) = wall(random, silo.d_c(), sibling.hopper_height);
        if parse(&sibling.sheet()).is_err() {
            continue;
        }
        let (foot, g) = (sibling.foot(), sibling.g());
        let beside = silo.depths.iter().map(|z| silo.load_depth(*z) + g + random.below(3));
        let beside: Vec<u64> = beside.filter(|z| *z <= foot).collect();
        sibling.depths = [depths(random, &sibling), beside].concat();
        sibling.depths.sort();
        sibling.depths.dedup();
        sibling.depths.truncate(200);
        return sibling;
    }
}

/// A silo of the same section and product, level with its brim, that lists the load depths of another: as much wall as grain lies against
/// there, 200 mm at least, over a flat floor.
pub fn level(silo: &Silo) -> Silo {
    let mut depths: Vec<u64> = silo.depths.iter().map(|z| silo.load_depth(*z)).collect();
    depths.dedup();
    Silo {
        hopper_height: 0,
        run: 0,
        strakes: equal_strakes(silo.load_depth(silo.foot()).max(200)),
        depths,
        headroom: None,
        ..silo.clone()
    }
}

/// Two strake lists, mostly of one length; of any numbers, or of 0 and 1, so that some end equally.
pub fn strake_lists(random: &mut Random) -> [Vec<u32>; 2] {
    let limit = random.pick(&[2, 1 << 32]);
    let length = random.below(26);
    let other = if random.one_in(4) { random.below(26) } else { length };
    [length, other].map(|length| (0..length).map(|_| random.below(limit) as u32).collect())
}

/// A sheet with something wrong, or with a number at or just past a limit.
pub fn damaged(random: &mut Random, silo: &Silo) -> Vec<u8> {
    let mut bytes = silo.sheet();
    // One time in four among the last bytes, where the headroom's record is.
    let from = if random.one_in(4) { bytes.len() - 12 } else { 0 };
    let at = from + random.below((bytes.len() - from) as u64) as usize;
    match random.below(11) {
        0 => bytes[at] ^= 1 << random.below(8),
        1 => bytes[at] = random.next() as u8,
        2 => bytes.truncate(at),
        3 => {
            let extra = if random.one_in(2) { 1 + random.below(4) } else { 1_024 };
            bytes.extend((0..extra).map(|_| random.next() as u8));
        }
        4 => drop(bytes.remove(at)),
        5 => bytes.insert(at, random.next() as u8),
        6 => {
            let length = random.within(0, 1_100);
            bytes = (0..length).map(|_| random.pick(&[0, 1, 2, 3, 4, 8, 10])).collect();
        }
        7 => {
            let noise = [random.pick(&[4, 4, 0, 5, 8]), 0, random.pick(&[8, 8, 7, 9]), 0];
            let length = random.below(14) as usize;
            bytes = Silo { headroom: None, ..silo.clone() }.sheet();
            bytes.extend(noise.into_iter().chain([random.next() as u8; 9]).take(length));
        }
        _ => bytes = past_a_limit(random, silo.clone()).sheet(),
    }
    bytes
}

/// Moves one or two numbers to a limit, of the rules, of the discharge factors or of the load depth, or to either side of it.
fn past_a_limit(random: &mut Random, mut silo: Silo) -> Silo {
    for _ in 0..=random.below(2) {
        let near = |random: &mut Random, limits: &[u64]| {
            (random.pick(limits) + random.below(3)).saturating_sub(1)
        };
        let d_c = silo.d_c();
        let strake = random.below(silo.strakes.len() as u64) as usize;
        let depth = random.below(silo.depths.len() as u64) as usize;
        let (foot, over) = (silo.foot(), silo.foot() + silo.hopper_height);
        match random.below(18) {
            0 => silo.section[0] = near(random, &[500, 50_000, 0, u32::MAX.into()]),
            1 => silo.weight = near(random, &[1_000, 30_000, 0, u32::MAX.into()]),
            2 => silo.ratio = near(random, &[20, 100, 0]),
            3 => silo.friction = near(random, &[10, 100, 0]),
            4 => silo.factor = near(random, &[0, 100, 200, 65_534]),
            5 => silo.e_i = near(random, &[d_c / 4, u32::MAX.into()]),
            6 => silo.e_o = near(random, &[d_c / 4, 1 << 30]),
            7 => silo.run = near(random, &[0, d_c / 2, u32::MAX.into()]),
            8 => silo.hopper_height = near(random, &[0, 25_000, 363_971 * silo.run / 1_000_000]),
            9 => silo.strakes[strake] = near(random, &[200, 3_000, 0]),
            10 => silo.depths[depth] = near(random, &[foot, 0]),
            11 => silo.depths.insert(depth, silo.depths[depth]),
            12 => stretch(&mut silo, near(random, &[10 * d_c])),
            13 => stretch(&mut silo, near(random, &[d_c, 3 * d_c / 2])),
            14 => silo.headroom = Some(near(random, &[foot, foot, 0, 65_536, u32::MAX.into()])),
            15 => silo.headroom = Some(near(random, &[silo.depths[depth]])),
            16 => {
                let long = near(random, &[3 * d_c, 50_000]);
                silo.section = sides(random, d_c, long);
            }
            _ => {
                let heights = [10 * d_c, d_c, 3 * d_c / 2];
                let limits = heights.map(|height| over.saturating_sub(height));
                silo.headroom = Some(near(random, &limits));
            }
        }
    }
    silo
}

/// Makes h that height with equal strakes, where they can.
fn stretch(silo: &mut Silo, height: u64) {
    let filled = height.saturating_sub(silo.hopper_height);
    let foot = (filled + silo.g()).clamp(200, 72_000);
    silo.strakes = equal_strakes(foot);
    silo.depths = vec![0, foot];
}
