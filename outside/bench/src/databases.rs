//! What the databases' portals share: a page's bytes.

/// A line as a database holds it.
pub struct Line {
    pub key: u32,
    pub value: u32,
    pub stamp: u32,
}

/// Writes a sample's page of its lines, by rising key.
pub fn write_page(sample: u32, lines: &[Line], buffer: &mut [u8]) -> usize {
    let mut at = 0;
    let mut number = |mut number: u32| {
        while number >= 0x80 {
            buffer[at] = number as u8 | 0x80;
            at += 1;
            number >>= 7;
        }
        buffer[at] = number as u8;
        at += 1;
    };
    number(sample);
    number(lines.len() as u32);
    for line in lines {
        number(line.key % 32);
        number(line.value);
        number(line.stamp);
    }
    at
}

/// How many of the kept bytes are the page that the maker writes.
pub fn compare_page(kept: &[u8], make: impl FnOnce(&mut [u8]) -> usize) -> usize {
    let mut scratch = [0; olipranj::LONGEST_PAGE];
    let length = make(&mut scratch);
    if kept.starts_with(&scratch[..length]) {
        length
    } else {
        0
    }
}
