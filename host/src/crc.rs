//! CRC-32, the check number of zip and gzip, by which a CSV shows whether it was changed since it was written.

/// The polynomial, lowest power first.
const POLYNOMIAL: u32 = 0xEDB8_8320;

pub fn crc32(bytes: &[u8]) -> u32 {
    !bytes.iter().fold(!0, |sum, byte| eight_bits(sum ^ u32::from(*byte)))
}

fn eight_bits(sum: u32) -> u32 {
    (0..8).fold(sum, |sum, _| (sum >> 1) ^ if sum & 1 == 1 { POLYNOMIAL } else { 0 })
}

#[cfg(test)]
mod tests {
    use super::crc32;

    /// The number that every description of CRC-32 has, and that of no bytes.
    #[test]
    fn of_nine_digits() {
        assert_eq!(crc32(b"123456789"), 0xCBF4_3926);
        assert_eq!(crc32(b""), 0);
    }
}
