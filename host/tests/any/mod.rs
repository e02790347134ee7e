//! Silos of any size, by their numbers.
#![allow(dead_code)]

use super::common::Random;
use silo::description::{Description, Product, Section};

/// A wall of strakes as high as `height`, or somewhat higher where the last strake would be too low; mm.
fn strakes(random: &mut Random, height: u32) -> Vec<u16> {
    let count = height.div_ceil(3000).max(1) + random.below(3) as u32;
    let each = (height / count).clamp(200, 3000);
    let mut strakes = vec![each as u16; count.min(24) as usize];
    let rest = height.saturating_sub(each * strakes.len() as u32);
    strakes[0] = (u32::from(strakes[0]) + rest).min(3000) as u16;
    strakes
}

/// A silo of about so many hundredths h/d_c; most are accepted.
pub fn any_silo(random: &mut Random, slenderness: u32) -> Description {
    let width = random.of(&[500, 733, 2000, 4999, 9000, 12_000, 20_011, 50_000]);
    let width = width + random.below(width as usize / 10) as u32 * random.below(2) as u32;
    let width = width.min(50_000);
    let height = (u64::from(width) * u64::from(slenderness) / 100) as u32;
    let (hopper_height, hopper_run) = match random.below(3) {
        0 => (height / 3, 1 + height / 9),
        _ => (0, 0),
    };
    let other = width + random.below(3 * width as usize) as u32;
    let silo = Description {
        section: random.of(&[
            Section::Circle(width),
            Section::Rectangle(width, other.min(50_000)),
            Section::Rectangle(other.min(50_000), width),
        ]),
        product: Product {
            weight: 1000 + random.below(29_001) as u32,
            ratio: 20 + random.below(81) as u16,
            friction: 10 + random.below(91) as u16,
            factor: random.of(&[0, 100, 101, 130, 135, 140, 177, 200]),
        },
        filling_eccentricity: 0,
        outlet_eccentricity: width / 5,
        hopper_height,
        hopper_run,
        strakes: strakes(random, height - hopper_height),
        depths: Vec::new(),
        headroom: 0,
    };
    let depths = silo.edges().map(|(_, edge)| edge as u32).collect();
    let headroom = random.below(1 + silo.wall_height() as usize) as u32 * random.below(2) as u32;
    Description { depths, headroom, ..silo }
}

/// A silo of any height, hopper and eccentricities that is accepted.
pub fn accepted(random: &mut Random) -> Description {
    loop {
        let most = random.of(&[100, 200, 990]);
        let slenderness = 1 + random.below(most) as u32;
        let silo = any_silo(random, slenderness);
        let width = silo.section.shorter_side() as usize;
        let mut eccentricity = || random.below(1 + width / 4) as u32;
        let [filling_eccentricity, outlet_eccentricity] = [eccentricity(), eccentricity()];
        let hopper_run = 1 + random.below((width - 1) / 2) as u32;
        let steepness = random.of(&[1, 2, 5, 20]);
        let hopper_height = (steepness * hopper_run / 2).clamp(1, 25_000);
        let silo = Description { filling_eccentricity, outlet_eccentricity, ..silo };
        let silo = match silo.is_flat() {
            true => silo,
            false => Description { hopper_height, hopper_run, ..silo },
        };
        if silo.is_accepted() {
            return silo;
        }
    }
}
