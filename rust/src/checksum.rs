//! The checksum of the FIT protocol.

/// What each byte makes of a checksum of 0.
const SUMS: [u16; 256] = sums();

const fn sums() -> [u16; 256] {
    let mut sums = [0; 256];
    let mut byte = 0;
    while byte < sums.len() {
        let mut sum = byte as u16;
        let mut bit = 0;
        while bit < 8 {
            sum = (sum >> 1) ^ if sum & 1 == 1 { 0xA001 } else { 0 };
            bit += 1;
        }
        sums[byte] = sum;
        byte += 1;
    }
    sums
}

/// The two bytes that stand after these, of parts one after another.
pub(crate) fn checksum(parts: &[&[u8]]) -> [u8; 2] {
    let next = |sum: u16, byte: &u8| (sum >> 8) ^ SUMS[usize::from(sum as u8 ^ byte)];
    parts.iter().copied().flatten().fold(0, next).to_le_bytes()
}
