//! Lines and what is entered for them.

use std::error::Error;
use std::fmt;

/// The analytes of a sample, numbered from 0.
pub const ANALYTES: u32 = 32;
/// The last sample.
pub const LAST_SAMPLE: u32 = u32::MAX / ANALYTES;

/// A line: one analyte of one sample.
#[derive(Clone, Copy, Debug, PartialEq, Eq, PartialOrd, Ord, Hash)]
pub struct Line {
    key: u32,
}

impl Line {
    /// The line of a sample's analyte; refused if one of them is too large.
    pub const fn new(sample: u32, analyte: u32) -> Result<Line, NoLine> {
        if sample > LAST_SAMPLE {
            Err(NoLine::Sample(sample))
        } else if analyte >= ANALYTES {
            Err(NoLine::Analyte(analyte))
        } else {
            Ok(Line { key: sample * ANALYTES + analyte })
        }
    }

    /// The line of a key; every 32-bit number is one.
    pub const fn of_key(key: u32) -> Line {
        Line { key }
    }

    /// The line's key.
    pub const fn key(self) -> u32 {
        self.key
    }

    /// The line's sample.
    pub const fn sample(self) -> u32 {
        self.key / ANALYTES
    }

    /// The line's analyte.
    pub const fn analyte(self) -> u32 {
        self.key % ANALYTES
    }
}

/// Sample and analyte: `7/1`.
impl fmt::Display for Line {
    fn fmt(&self, f: &mut fmt::Formatter<'_>) -> fmt::Result {
        write!(f, "{}/{}", self.sample(), self.analyte())
    }
}

/// A sample or an analyte that no line has.
#[derive(Clone, Copy, Debug, PartialEq, Eq)]
#[allow(missing_docs)]
pub enum NoLine {
    Sample(u32),
    Analyte(u32),
}

impl fmt::Display for NoLine {
    fn fmt(&self, f: &mut fmt::Formatter<'_>) -> fmt::Result {
        match self {
            NoLine::Sample(sample) => write!(f, "sample {sample} is above {LAST_SAMPLE}"),
            NoLine::Analyte(analyte) => write!(f, "analyte {analyte} is above {}", ANALYTES - 1),
        }
    }
}

impl Error for NoLine {}

/// What is entered for a line: a result with its value, or that the line is withdrawn.
#[derive(Clone, Copy, Debug, PartialEq, Eq)]
#[allow(missing_docs)]
pub enum Entry {
    Result(u32),
    Withdrawn,
}
