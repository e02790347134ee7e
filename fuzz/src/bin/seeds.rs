//! seeds FOLDER: writes inputs for the fuzzer to start from, a file each: accepted sheets, damaged ones, silos of each kind of discharge
//! factors with C0 written and blank, headrooms, long bins, the shortest and longest pages, the numbers of a catalogue call, and strake
//! lists.

use reference::inputs::{self, Random};
use reference::limits::{self, of_height, under_headroom};
use reference::sheet::Silo;

const SILOS: u64 = 24;
/// h over a d_c of 5,000: low, as high as wide, squat, and slender from its limit on.
const HEIGHTS: [u64; 5] = [200, 5_000, 6_250, 7_499, 7_500];
/// Under a wall of 7,800: none, some, all but a millimetre; and a silo that without its headroom is too high.
const HEADROOMS: [(u64, u64); 4] = [(7_800, 0), (7_500, 300), (1, 7_799), (49_999, 5_000)];
/// Exactly three times as long as wide; a millimetre longer, either side the long one; as long and as narrow as there is.
const SIDES: [[u64; 2]; 4] = [[5_000, 15_000], [5_000, 15_001], [15_001, 5_000], [500, 50_000]];
/// Row 8, wall 1 and a buffer of 14 bytes, where `compare_input` reads them.
const CATALOGUE: [u8; 9] = [8, 0, 0, 0, 1, 0, 0, 0, 14];
/// Lists of one number each, the second of which governs, and of no number and one.
const STRAKES: [&[u8]; 2] = [&[1, 0, 0, 0, 2, 0, 0, 0], &[1, 0, 0, 0]];

fn main() {
    let folder = std::env::args().nth(1).expect("a folder");
    let mut random = Random::new(1_991);
    let mut inputs = vec![CATALOGUE.to_vec()];
    inputs.extend(STRAKES.map(<[u8]>::to_vec));
    for height in HEIGHTS {
        let silo = of_height(&[5_000], height, (0, 0));
        inputs.extend([silo.sheet(), Silo { factor: 0, ..silo }.sheet()]);
    }
    inputs.extend(HEADROOMS.map(|(height, g)| under_headroom(&[5_000], height, (0, 0), g).sheet()));
    inputs.extend(SIDES.map(|sides| of_height(&sides, 2_000, (0, 0)).sheet()));
    inputs.extend(limits::pages().iter().map(Silo::sheet));
    for _ in 0..SILOS {
        let silo = inputs::silo(&mut random);
        inputs.extend([silo.sheet(), inputs::damaged(&mut random, &silo)]);
    }
    for (i, input) in inputs.iter().enumerate() {
        std::fs::write(format!("{folder}/{i}"), input).expect("a folder to write to");
    }
}
