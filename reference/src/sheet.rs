//! A sheet and the order in which it is refused, as document 01 writes them down, without 13, which C-11 of document 02 retires, and with
//! the headroom and 17 of C-13, the depth given with it of C-16 and, for loads alone, 20 of C-17.

use crate::answers::{BOTTOM, LOADS};

/// What a sheet says; lengths in mm, weight in N/m³, ratio, friction and factor in hundredths.
#[derive(Clone, Debug, PartialEq, Eq)]
pub struct Silo {
    /// One diameter, or two sides.
    pub section: Vec<u64>,
    pub weight: u64,
    pub ratio: u64,
    pub friction: u64,
    /// As written: 0 is a blank one.
    pub factor: u64,
    pub e_i: u64,
    pub e_o: u64,
    pub hopper_height: u64,
    pub run: u64,
    pub strakes: Vec<u64>,
    pub depths: Vec<u64>,
    /// As written: a sheet of six records has none, which stands for 0.
    pub headroom: Option<u64>,
}

impl Silo {
    pub fn a(&self) -> u64 {
        self.section[0]
    }

    pub fn b(&self) -> u64 {
        self.section[self.section.len() - 1]
    }

    pub fn d_c(&self) -> u64 {
        self.a().min(self.b())
    }

    /// The long side is over three times the short one. A circle has one side alone.
    pub fn is_long(&self) -> bool {
        self.a().max(self.b()) > 3 * self.d_c()
    }

    /// V, the wall's foot.
    pub fn foot(&self) -> u64 {
        self.strakes.iter().sum()
    }

    /// g, from the brim down to the equivalent surface.
    pub fn g(&self) -> u64 {
        self.headroom.unwrap_or(0)
    }

    /// The larger of 0 and z - g, where the loads at z are taken.
    pub fn load_depth(&self, z: u64) -> u64 {
        z.saturating_sub(self.g())
    }

    /// h = V - g + H, where g is below V.
    pub fn height(&self) -> u64 {
        self.load_depth(self.foot()) + self.hopper_height
    }

    pub fn edges(&self) -> Vec<u64> {
        (1..=self.strakes.len()).map(|n| self.strakes[..n].iter().sum()).collect()
    }

    pub fn answers_length(&self) -> usize {
        LOADS.len() * self.depths.len() + BOTTOM + self.strakes.len()
    }

    pub fn sheet(&self) -> Vec<u8> {
        let product = [self.ratio, self.friction, self.factor];
        let headroom = self.headroom.map(|g| record(8, bytes(4, &[g])));
        [
            record(self.section.len() as u16, bytes(4, &self.section)),
            record(3, [bytes(4, &[self.weight]), bytes(2, &product)].concat()),
            record(4, bytes(4, &[self.e_i, self.e_o])),
            record(5, bytes(4, &[self.hopper_height, self.run])),
            record(6, bytes(2, &self.strakes)),
            record(7, bytes(4, &self.depths)),
            headroom.unwrap_or_default(),
        ]
        .concat()
    }
}

pub fn record(kind: u16, payload: Vec<u8>) -> Vec<u8> {
    let length = payload.len() as u16;
    [&length.to_le_bytes()[..], &kind.to_le_bytes(), &payload].concat()
}

/// The lowest bytes of each number, lowest first.
fn bytes(width: usize, numbers: &[u64]) -> Vec<u8> {
    numbers.iter().flat_map(|number| number.to_le_bytes().into_iter().take(width)).collect()
}

fn number(bytes: &[u8]) -> u64 {
    bytes.iter().rev().fold(0, |n, byte| n << 8 | u64::from(*byte))
}

fn numbers(payload: &[u8], width: usize) -> Vec<u64> {
    payload.chunks(width).map(number).collect()
}

/// What is asked of a sheet: only a length, or loads.
#[derive(Clone, Copy, PartialEq, Eq)]
pub enum Asked {
    Length,
    Loads,
}

/// The silo, or the number of the refusal, of a sheet whose loads are asked for.
pub fn parse(sheet: &[u8]) -> Result<Silo, u64> {
    judged(sheet, 0, Asked::Loads)
}

/// The same where a length alone is asked for.
pub fn measure(sheet: &[u8]) -> Result<Silo, u64> {
    judged(sheet, 0, Asked::Length)
}

/// What a call that tells a length answers: 2^32 + the length, or the number of the refusal.
pub fn told(sheet: &[u8], length: fn(&Silo) -> usize) -> u64 {
    measure(sheet).map_or_else(|refusal| refusal, |silo| (1 << 32) + length(&silo) as u64)
}

/// The silo, or the number of the refusal, where a depth is given with the sheet. Depth 0 is never over V.
pub fn judged(sheet: &[u8], given: u64, asked: Asked) -> Result<Silo, u64> {
    if sheet.len() > 1024 {
        return Err(1);
    }
    let silo = records(sheet)?;
    match judge(&silo, given, asked) {
        0 => Ok(silo),
        refusal => Err(refusal),
    }
}

/// What a sheet says, before any value is judged. Refusals 2 to 5: header, kind, length, payload present, record by record; then nothing
/// left over. The sixth record may be the last.
pub fn records(sheet: &[u8]) -> Result<Silo, u64> {
    let due: [&[u64]; 7] = [&[1, 2], &[3], &[4], &[5], &[6], &[7], &[8]];
    let mut rest = sheet;
    let mut payloads = Vec::new();
    for kinds in due {
        if payloads.len() == 6 && rest.is_empty() {
            break;
        }
        let header = rest.get(..4).ok_or(2u64)?;
        let (length, kind) = (number(&header[..2]) as usize, number(&header[2..]));
        if !kinds.contains(&kind) {
            return Err(3);
        }
        let allowed = match kind {
            1 | 8 => length == 4,
            2 | 4 | 5 => length == 8,
            3 => length == 10,
            6 => length % 2 == 0 && (1..=24).contains(&(length / 2)),
            _ => length % 4 == 0 && (1..=200).contains(&(length / 4)),
        };
        if !allowed {
            return Err(4);
        }
        payloads.push(rest[4..].get(..length).ok_or(2u64)?);
        rest = &rest[4 + length..];
    }
    if !rest.is_empty() {
        return Err(5);
    }
    let product = payloads[1];
    Ok(Silo {
        section: numbers(payloads[0], 4),
        weight: number(&product[..4]),
        ratio: number(&product[4..6]),
        friction: number(&product[6..8]),
        factor: number(&product[8..]),
        e_i: number(&payloads[2][..4]),
        e_o: number(&payloads[2][4..]),
        hopper_height: number(&payloads[3][..4]),
        run: number(&payloads[3][4..]),
        strakes: numbers(payloads[4], 2),
        depths: numbers(payloads[5], 4),
        headroom: payloads.get(6).map(|payload| number(payload)),
    })
}

/// A sheet with that C0, where its second record is a product's and lies whole inside it, whatever else is wrong with it.
pub fn with_factor(sheet: &[u8], factor: u16) -> Option<Vec<u8>> {
    let product = 4 + number(sheet.get(..2)?) as usize;
    let (before, after) = (sheet.get(..product + 12)?, sheet.get(product + 14..)?);
    let written = [before, &factor.to_le_bytes(), after].concat();
    before[product..].starts_with(&[10, 0, 3, 0]).then_some(written)
}

/// Refusals 6, 20 where loads are asked for, 7 to 11, 17 and 12 in this order, or 0; 11 of the given depth too.
fn judge(silo: &Silo, given: u64, asked: Asked) -> u64 {
    let (d_c, foot) = (silo.d_c(), silo.foot());
    let (hopper, run) = (silo.hopper_height, silo.run);
    let steep = 1_000_000 * hopper >= 363_971 * run;
    let flat = hopper == 0 && run == 0;
    let hopper_fits = run >= 1 && 2 * run < d_c && hopper <= 25_000 && steep;
    let product_fits = (1_000..=30_000).contains(&silo.weight)
        && (20..=100).contains(&silo.ratio)
        && (10..=100).contains(&silo.friction)
        && (silo.factor == 0 || (100..=200).contains(&silo.factor));
    let wrong = [
        (6, silo.section.iter().any(|side| !(500..=50_000).contains(side))),
        (20, asked == Asked::Loads && silo.is_long()),
        (7, !product_fits),
        (8, 4 * silo.e_i > d_c || 4 * silo.e_o > d_c),
        (9, !flat && !hopper_fits),
        (10, silo.strakes.iter().any(|height| !(200..=3_000).contains(height))),
        (
            11,
            silo.depths.iter().chain([&given]).any(|depth| *depth > foot)
                || silo.depths.windows(2).any(|pair| pair[1] <= pair[0]),
        ),
        (17, silo.g() >= foot),
        (12, silo.height() >= 10 * d_c),
    ];
    wrong.iter().find(|(_, holds)| *holds).map_or(0, |(refusal, _)| *refusal)
}
