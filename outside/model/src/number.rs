//! Numbers in groups of seven bits.

use crate::{Answer, Number};

/// The bytes that a number takes.
pub(crate) fn length(number: u32) -> usize {
    let bits = (u32::BITS - (number | 1).leading_zeros()) as usize;
    bits.div_ceil(7)
}

/// Writes numbers one after another into a buffer that is long enough.
pub(crate) struct Writer<'a> {
    pub bytes: &'a mut [u8],
    pub at: usize,
}

impl Writer<'_> {
    pub fn number(&mut self, mut number: u32) {
        while number >= 0x80 {
            self.byte(number as u8 | 0x80);
            number >>= 7;
        }
        self.byte(number as u8);
    }

    fn byte(&mut self, byte: u8) {
        self.bytes[self.at] = byte;
        self.at += 1;
    }
}

/// Reads numbers one after another from the left.
pub(crate) struct Reader<'a> {
    pub bytes: &'a [u8],
    pub at: usize,
}

impl Reader<'_> {
    /// The next number, or CUT or NUMBER with the offset of its first byte.
    pub fn number(&mut self) -> Result<u32, Answer> {
        let first = self.at;
        let mut number = 0;
        for group in 0..5 {
            let Some(&byte) = self.bytes.get(first + group) else {
                return Err(Answer::with(Number::Cut, first as u64));
            };
            if (group == 4 && byte > 0x0f) || (group > 0 && byte == 0) {
                break;
            }
            number |= u32::from(byte & 0x7f) << (7 * group);
            if byte & 0x80 == 0 {
                self.at = first + group + 1;
                return Ok(number);
            }
        }
        Err(Answer::with(Number::Number, first as u64))
    }

    /// The next number if it passes its own check, else the fault with its offset.
    pub fn checked(&mut self, check: impl Fn(u32) -> bool, fault: Number) -> Result<u32, Answer> {
        let first = self.at;
        let number = self.number()?;
        if check(number) {
            Ok(number)
        } else {
            Err(Answer::with(fault, first as u64))
        }
    }

    pub fn at_end(&self) -> bool {
        self.at == self.bytes.len()
    }
}
