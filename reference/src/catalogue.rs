//! Table 7.1 of source 001, and what the catalogue call writes for each row and wall.

/// Weight in tenths of kN/m³; Ks, friction on steel and on concrete, and C0 in hundredths.
pub const TABLE: [(&str, [u32; 5]); 10] = [
    ("orge", [85, 55, 35, 45, 135]),
    ("ciment", [160, 50, 40, 50, 140]),
    ("clinker", [180, 45, 45, 55, 140]),
    ("sable sec", [160, 45, 40, 50, 140]),
    ("farine", [70, 40, 30, 40, 145]),
    ("cendre volante", [140, 45, 45, 55, 145]),
    ("maïs", [85, 50, 30, 40, 140]),
    ("sucre", [95, 50, 45, 55, 140]),
    ("blé", [90, 55, 30, 40, 130]),
    ("charbon", [100, 50, 45, 55, 145]),
];

/// The record due: its header, then weight, ratio, friction and factor; or 15 or 16.
pub fn record(row: u32, wall: u32, length: usize) -> Result<Vec<u8>, u32> {
    let (_, [tenths, ratio, steel, concrete, factor]) = *TABLE.get(row as usize).ok_or(15u32)?;
    let friction = *[steel, concrete].get(wall as usize).ok_or(15u32)?;
    if length != 14 {
        return Err(16);
    }
    let mut record = vec![10, 0, 3, 0];
    record.extend((100 * tenths).to_le_bytes());
    for hundredths in [ratio, friction, factor] {
        record.extend((hundredths as u16).to_le_bytes());
    }
    Ok(record)
}
