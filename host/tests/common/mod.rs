//! Stored outputs, a text to change, and random numbers.
#![allow(dead_code)]

use std::path::PathBuf;

pub fn root() -> PathBuf {
    PathBuf::from(env!("CARGO_MANIFEST_DIR")).join("..")
}

/// The samples that have loads.
pub const SAMPLES: [&str; 7] = [
    "wheat-tower",
    "barley-bin",
    "cement",
    "corrugated-bin",
    "flat-store",
    "headroom-bin",
    "blank-factor",
];

pub fn sample(name: &str) -> Vec<u8> {
    std::fs::read(root().join("samples").join(name)).expect(name)
}

/// Compares with a stored output; with SILO_STORE set, stores it.
pub fn stored(file: &str, actual: &[u8]) {
    let path = root().join(file);
    if std::env::var_os("SILO_STORE").is_some() {
        std::fs::write(&path, actual).expect(file);
    }
    let expected = std::fs::read(&path).expect(file);
    if expected != actual {
        let actual = String::from_utf8_lossy(actual);
        panic!("{file} is not what was written:\n{actual}\n(SILO_STORE=1 stores it)");
    }
}

/// A silo that is accepted, as names and values.
const LINES: [(&str, &str); 11] = [
    ("diameter", "5000 mm"),
    ("weight", "9.0 kN/m3"),
    ("ratio", "0.50"),
    ("friction", "0.40"),
    ("factor", "1.40"),
    ("filling eccentricity", "0 mm"),
    ("outlet eccentricity", "0 mm"),
    ("hopper height", "1500 mm"),
    ("hopper run", "2000 mm"),
    ("strakes", "5 x 2000 mm"),
    ("depths", "0, 5000 mm"),
];

/// Changes that put a flat floor in the hopper's place.
pub const FLAT: [(&str, &str); 3] =
    [("hopper height", "-"), ("hopper run", "-"), ("floor", "flat")];

/// Changes towards the greatest loads: P_w has eight digits at the foot, as many as a number of a depth can have.
pub const HEAVIEST: [(&str, &str); 10] = [
    ("diameter", "48 m"),
    ("weight", "30 kN/m3"),
    ("ratio", "1.00"),
    ("friction", "1.00"),
    ("factor", "2.00"),
    ("filling eccentricity", "12 m"),
    ("hopper height", "25 m"),
    ("hopper run", "23999 mm"),
    ("strakes", "24 x 3 m"),
    ("depths", "strake edges"),
];

/// The silo with some lines exchanged; a new name goes to the end, and a value of `-` leaves its line out.
pub fn text_with(changes: &[(&str, &str)]) -> String {
    let mut lines: Vec<(&str, &str)> = LINES.to_vec();
    for (name, value) in changes {
        match lines.iter_mut().find(|line| line.0 == *name) {
            Some(line) => line.1 = value,
            None => lines.push((name, value)),
        }
    }
    lines.retain(|line| line.1 != "-");
    lines.iter().map(|(name, value)| format!("{name} = {value}\n")).collect()
}

/// xorshift64*, so that every run tries the same.
pub struct Random(pub u64);

impl Random {
    pub fn next(&mut self) -> u64 {
        self.0 ^= self.0 >> 12;
        self.0 ^= self.0 << 25;
        self.0 ^= self.0 >> 27;
        self.0.wrapping_mul(0x2545_F491_4F6C_DD1D)
    }

    pub fn below(&mut self, limit: usize) -> usize {
        (self.next() >> 11) as usize % limit
    }

    pub fn of<T: Copy>(&mut self, choices: &[T]) -> T {
        choices[self.below(choices.len())]
    }
}

/// Nothing is said but that a silo is improbable.
pub fn only_doubts(messages: &str) -> bool {
    messages.lines().all(|line| line.contains(": Doubt: "))
}
