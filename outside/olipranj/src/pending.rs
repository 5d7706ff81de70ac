//! Entries that were refused, and what follows from them.

use std::error::Error;
use std::fmt;

use crate::{Entry, Line, Look, Refusal, Stamp};

/// An entry that was refused, and how.
#[derive(Clone, Copy, Debug, PartialEq, Eq)]
#[allow(missing_docs)]
pub struct Pending {
    pub line: Line,
    pub entry: Entry,
    pub refusal: Refusal,
}

/// What became of an entry.
#[must_use = "the entry may be pending"]
#[derive(Clone, Copy, Debug, PartialEq, Eq)]
pub enum Taken {
    /// It is entered, with this stamp.
    Entered(Stamp),
    /// It was refused and is pending.
    Pending(Refusal),
}

/// What a book says of a line.
#[must_use]
#[derive(Clone, Copy, Debug, PartialEq, Eq)]
pub enum Current {
    /// What the store's look finds; nothing is pending for the line.
    Held(Look),
    /// The line's last entry is pending: what the store holds is older.
    Pending(Entry),
}

/// Why there is no page.
#[derive(Clone, Copy, Debug, PartialEq, Eq)]
pub enum NoPage {
    /// This line of the sample has an entry pending: the notice is due.
    Pending(Line),
    /// The call was refused.
    Refused(Refusal),
}

impl fmt::Display for NoPage {
    fn fmt(&self, f: &mut fmt::Formatter<'_>) -> fmt::Result {
        match self {
            NoPage::Pending(line) => write!(f, "an entry of line {line} is pending"),
            NoPage::Refused(refusal) => fmt::Display::fmt(refusal, f),
        }
    }
}

impl Error for NoPage {}
