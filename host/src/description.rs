//! A silo as a sheet describes it, whether the library accepts it or not, and the sheet's bytes.

use crate::library::{self, Refusal};

/// mm
#[derive(Clone, Copy, Debug, PartialEq, Eq)]
pub enum Section {
    Circle(u32),
    Rectangle(u32, u32),
}

#[derive(Clone, Copy, Debug, PartialEq, Eq)]
pub struct Product {
    /// γ, N/m³
    pub weight: u32,
    /// Ks, μ and C0, hundredths
    pub ratio: u16,
    pub friction: u16,
    pub factor: u16,
}

#[derive(Clone, Debug, PartialEq, Eq)]
pub struct Description {
    pub section: Section,
    pub product: Product,
    /// e_i and e_o, mm
    pub filling_eccentricity: u32,
    pub outlet_eccentricity: u32,
    /// H and r, mm
    pub hopper_height: u32,
    pub hopper_run: u32,
    /// Heights, top first, mm
    pub strakes: Vec<u16>,
    /// Below the brim, mm
    pub depths: Vec<u32>,
    /// g, from the brim down to the grain's level surface, mm
    pub headroom: u32,
}

/// Bytes of a record's header: payload length and kind.
pub const HEADER: usize = 4;
/// Bytes of a catalogue record: header, γ, Ks, μ, C0.
const PRODUCT_RECORD: usize = 14;
/// A record's payload length is a u16.
pub const MOST_STRAKES: usize = u16::MAX as usize / 2;
pub const MOST_DEPTHS: usize = u16::MAX as usize / 4;

impl Section {
    pub fn shorter_side(self) -> u32 {
        match self {
            Section::Circle(d) => d,
            Section::Rectangle(a, b) => a.min(b),
        }
    }

    /// s = 0.2 d_c, of the patch load (5.10), tenths of a mm
    pub fn patch_side(self) -> u64 {
        2 * u64::from(self.shorter_side())
    }
}

/// C0 that the library reads in place of 0, hundredths: equation 7.4 at an internal friction angle of 40°.
pub const BLANK_FACTOR: u16 = 155;

impl Product {
    /// C0 as it acts, hundredths.
    pub fn factor_used(&self) -> u16 {
        match self.factor {
            0 => BLANK_FACTOR,
            factor => factor,
        }
    }

    /// A row of table 7.1 from the library.
    pub fn from_catalogue(row: u32, wall: u32) -> Result<Product, Refusal> {
        let mut record = [0; PRODUCT_RECORD];
        library::fill_record(row, wall, &mut record)?;
        Ok(Product::from_payload(&record[HEADER..]))
    }

    fn from_payload(payload: &[u8]) -> Product {
        let [ratio, friction, factor] = [4, 6, 8].map(|place| u16_at(payload, place));
        Product { weight: u32_at(payload, 0), ratio, friction, factor }
    }
}

impl Description {
    pub fn is_flat(&self) -> bool {
        self.hopper_height == 0 && self.hopper_run == 0
    }

    /// α, the hopper's slope from the horizontal, radians.
    pub fn slope(&self) -> f64 {
        f64::from(self.hopper_height).atan2(f64::from(self.hopper_run))
    }

    /// The same in degrees, to one decimal.
    pub fn degrees(&self) -> String {
        format!("{:.1}", self.slope().to_degrees())
    }

    /// The outlet's width across the shorter side, mm; 0 where the run leaves none.
    pub fn outlet_width(&self) -> u32 {
        self.section.shorter_side().saturating_sub(self.hopper_run.saturating_mul(2))
    }

    /// The outlet's eccentricity lies beyond the edge of the hopper's outlet: e_o > d_c/2 - r.
    pub fn outlet_is_passed(&self) -> bool {
        !self.is_flat() && 2 * u64::from(self.outlet_eccentricity) > self.outlet_width().into()
    }

    /// V, mm
    pub fn wall_height(&self) -> u64 {
        self.strakes.iter().map(|height| u64::from(*height)).sum()
    }

    /// Each strake's height and lower edge, mm
    pub fn edges(&self) -> impl Iterator<Item = (u16, u64)> + '_ {
        self.strakes.iter().scan(0, |edge, height| {
            *edge += u64::from(*height);
            Some((*height, *edge))
        })
    }

    /// The same silo with each strake's lower edge as a depth.
    pub fn at_edges(&self) -> Description {
        let depths = self.edges().map(|(_, edge)| edge as u32).collect();
        Description { depths, ..self.clone() }
    }

    /// V - g, of the grain at the wall, mm; 0 where the headroom leaves none.
    pub fn grain_height(&self) -> u64 {
        self.wall_height().saturating_sub(self.headroom.into())
    }

    /// h = V - g + H, from the grain's surface to the outlet, mm
    pub fn height(&self) -> u64 {
        self.grain_height() + u64::from(self.hopper_height)
    }

    /// V + H, from the brim to the outlet, mm
    pub fn built_height(&self) -> u64 {
        self.wall_height() + u64::from(self.hopper_height)
    }

    /// The library calculates it.
    pub fn is_accepted(&self) -> bool {
        library::verdict(&self.to_bytes()).is_ok()
    }

    /// The sheet of six records, and of a seventh where there is headroom. At most `MOST_STRAKES` and `MOST_DEPTHS` can be written.
    pub fn to_bytes(&self) -> Vec<u8> {
        let product = &self.product;
        let mut product_payload = words(&[product.weight]);
        product_payload.extend(halves(&[product.ratio, product.friction, product.factor]));
        let section = match self.section {
            Section::Circle(d) => record(1, words(&[d])),
            Section::Rectangle(a, b) => record(2, words(&[a, b])),
        };
        let headroom = (self.headroom > 0).then(|| record(8, words(&[self.headroom])));
        let records = [
            section,
            record(3, product_payload),
            record(4, words(&[self.filling_eccentricity, self.outlet_eccentricity])),
            record(5, words(&[self.hopper_height, self.hopper_run])),
            record(6, halves(&self.strakes)),
            record(7, words(&self.depths)),
            headroom.unwrap_or_default(),
        ];
        records.concat()
    }

    /// The description in six records or seven; a refusal of form (1 to 5) is the library's.
    pub fn from_bytes(sheet: &[u8]) -> Result<Description, Refusal> {
        if let Err(refusal) = library::answers_length(sheet) {
            if refusal.is_of_form() {
                return Err(refusal);
            }
        }
        let mut rest = sheet;
        let [section, product, filling, bottom, strakes, depths] =
            std::array::from_fn(|_| next_payload(&mut rest));
        let headroom = if rest.is_empty() { 0 } else { u32_at(next_payload(&mut rest), 0) };
        Ok(Description {
            section: match section.len() {
                4 => Section::Circle(u32_at(section, 0)),
                _ => Section::Rectangle(u32_at(section, 0), u32_at(section, 4)),
            },
            product: Product::from_payload(product),
            filling_eccentricity: u32_at(filling, 0),
            outlet_eccentricity: u32_at(filling, 4),
            hopper_height: u32_at(bottom, 0),
            hopper_run: u32_at(bottom, 4),
            strakes: (0..strakes.len() / 2).map(|i| u16_at(strakes, 2 * i)).collect(),
            depths: (0..depths.len() / 4).map(|i| u32_at(depths, 4 * i)).collect(),
            headroom,
        })
    }
}

/// The next record's payload, of a sheet whose form the library has accepted.
fn next_payload<'a>(rest: &mut &'a [u8]) -> &'a [u8] {
    let (payload, after) = rest[HEADER..].split_at(u16_at(rest, 0).into());
    *rest = after;
    payload
}

fn record(kind: u16, payload: Vec<u8>) -> Vec<u8> {
    let length = u16::try_from(payload.len()).expect("the payload's length is a u16");
    [halves(&[length, kind]), payload].concat()
}

fn words(numbers: &[u32]) -> Vec<u8> {
    numbers.iter().flat_map(|n| n.to_le_bytes()).collect()
}

fn halves(numbers: &[u16]) -> Vec<u8> {
    numbers.iter().flat_map(|n| n.to_le_bytes()).collect()
}

pub fn u16_at(bytes: &[u8], place: usize) -> u16 {
    u16::from_le_bytes([bytes[place], bytes[place + 1]])
}

fn u32_at(bytes: &[u8], place: usize) -> u32 {
    u32::from(u16_at(bytes, place)) | u32::from(u16_at(bytes, place + 2)) << 16
}
