//! A sample's page, and its lines to read.

use std::error::Error;
use std::fmt;

use crate::number::{self, Unread};
use crate::{Line, Stamp, ANALYTES, LAST_SAMPLE};

/// A sample's page, as the store made it: bytes to keep.
#[must_use]
#[derive(Clone, Debug, PartialEq, Eq)]
pub struct Page {
    bytes: Vec<u8>,
}

impl Page {
    pub(crate) const fn new(bytes: Vec<u8>) -> Page {
        Page { bytes }
    }

    /// The page's bytes.
    pub fn bytes(&self) -> &[u8] {
        &self.bytes
    }

    /// The page's bytes, to keep.
    pub fn into_bytes(self) -> Vec<u8> {
        self.bytes
    }

    /// The page's lines.
    pub fn lines(&self) -> Result<PageLines<'_>, PageFault> {
        PageLines::read(&self.bytes)
    }
}

/// A line on a page: its current result.
#[derive(Clone, Copy, Debug, PartialEq, Eq)]
#[allow(missing_docs)]
pub struct PageLine {
    pub line: Line,
    pub value: u32,
    pub stamp: Stamp,
}

/// Why bytes are no page, and where: the offset of the number or byte at fault.
#[derive(Clone, Copy, Debug, PartialEq, Eq)]
#[allow(missing_docs)]
pub enum PageFault {
    Cut(usize),
    Number(usize),
    Sample(usize),
    Count(usize),
    Analyte(usize),
    Stamp(usize),
    Trail(usize),
}

impl fmt::Display for PageFault {
    fn fmt(&self, f: &mut fmt::Formatter<'_>) -> fmt::Result {
        let (what, offset) = match self {
            PageFault::Cut(offset) => ("the bytes end before a number or inside it", offset),
            PageFault::Number(offset) => {
                ("a number is not in its shortest form, or is above 32 bits", offset)
            }
            PageFault::Sample(offset) => ("the sample is too large", offset),
            PageFault::Count(offset) => ("a page has no more lines than a sample has analytes", offset),
            PageFault::Analyte(offset) => ("the analyte is too large, or not above the one before", offset),
            PageFault::Stamp(offset) => ("no copy has this stamp", offset),
            PageFault::Trail(offset) => ("bytes are left after the page", offset),
        };
        write!(f, "offset {offset}: {what}")
    }
}

impl Error for PageFault {}

/// The lines of a page, read one after another from its bytes. After a fault there is no further line.
#[derive(Clone, Debug)]
pub struct PageLines<'a> {
    bytes: &'a [u8],
    at: usize,
    sample: u32,
    left: u32,
    lowest: u32,
}

impl<'a> PageLines<'a> {
    /// Reads a page's sample and its number of lines.
    pub fn read(bytes: &'a [u8]) -> Result<PageLines<'a>, PageFault> {
        let mut lines = PageLines { bytes, at: 0, sample: 0, left: 0, lowest: 0 };
        lines.sample = lines.number(LAST_SAMPLE, PageFault::Sample)?;
        lines.left = lines.number(ANALYTES, PageFault::Count)?;
        if lines.left == 0 {
            lines.end()?;
        }
        Ok(lines)
    }

    /// The page's sample.
    pub const fn sample(&self) -> u32 {
        self.sample
    }

    /// How many lines are still to be read.
    pub const fn left(&self) -> u32 {
        self.left
    }

    /// The next number, if it is not above a bound.
    fn number(&mut self, most: u32, fault: fn(usize) -> PageFault) -> Result<u32, PageFault> {
        let begin = self.at;
        let (number, length) =
            number::read(self.bytes.get(begin..).unwrap_or(&[])).map_err(|unread| match unread {
                Unread::Cut => PageFault::Cut(begin),
                Unread::Number => PageFault::Number(begin),
            })?;
        self.at += length;
        if number > most {
            return Err(fault(begin));
        }
        Ok(number)
    }

    fn line(&mut self) -> Result<PageLine, PageFault> {
        let begin = self.at;
        let analyte = self.number(ANALYTES - 1, PageFault::Analyte)?;
        if analyte < self.lowest {
            return Err(PageFault::Analyte(begin));
        }
        self.lowest = analyte + 1;
        let value = self.number(u32::MAX, PageFault::Number)?;
        let begin = self.at;
        let stamp = self.number(u32::MAX - 1, PageFault::Stamp)?;
        if stamp == 0 {
            return Err(PageFault::Stamp(begin));
        }
        let line = Line::of_key(self.sample * ANALYTES + analyte);
        Ok(PageLine { line, value, stamp: Stamp(stamp) })
    }

    fn end(&self) -> Result<(), PageFault> {
        if self.at < self.bytes.len() {
            return Err(PageFault::Trail(self.at));
        }
        Ok(())
    }
}

impl Iterator for PageLines<'_> {
    type Item = Result<PageLine, PageFault>;

    fn next(&mut self) -> Option<Self::Item> {
        let left = self.left.checked_sub(1)?;
        self.left = left;
        let line = self.line().and_then(|line| if left == 0 { self.end().map(|()| line) } else { Ok(line) });
        if line.is_err() {
            self.left = 0;
        }
        Some(line)
    }
}
