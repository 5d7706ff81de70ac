//! A number's bytes: groups of seven bits, the lowest first.

/// Why bytes do not begin with a number.
pub(crate) enum Unread {
    /// They end before it or inside it.
    Cut,
    /// It is not in its shortest form, or is above 32 bits.
    Number,
}

/// The number that bytes begin with, and how many bytes it takes.
pub(crate) fn read(bytes: &[u8]) -> Result<(u32, usize), Unread> {
    let mut number = 0;
    for (at, &byte) in bytes.iter().take(5).enumerate() {
        if at == 4 && byte > 0x0f || at > 0 && byte == 0 {
            return Err(Unread::Number);
        }
        number |= u32::from(byte & 0x7f) << (7 * at);
        if byte < 0x80 {
            return Ok((number, at + 1));
        }
    }
    Err(Unread::Cut)
}

/// Writes a number at the end of the bytes.
pub(crate) fn write(bytes: &mut Vec<u8>, mut number: u32) {
    while number > 0x7f {
        bytes.push((number & 0x7f) as u8 | 0x80);
        number >>= 7;
    }
    bytes.push(number as u8);
}
