//! The checksum.

/// The polynomial of CRC-32, its lowest bit first.
const POLYNOMIAL: u32 = 0xedb8_8320;

/// CRC-32 as zlib, PNG and Ethernet have it. In a file of this size it finds each change of one to three bits, and each
/// change within 32 bits in a row.
pub fn checksum(bytes: &[u8]) -> u32 {
    !bytes.iter().fold(!0, |sum, &byte| byte_more(sum ^ u32::from(byte)))
}

fn byte_more(sum: u32) -> u32 {
    (0..8).fold(sum, |sum, _| if sum & 1 == 1 { sum >> 1 ^ POLYNOMIAL } else { sum >> 1 })
}
