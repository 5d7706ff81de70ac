//! Refusals.

use std::error::Error;
use std::fmt;

use crate::{Answer, Number};

/// A refused call: its answer. The store and every lent byte are as they were.
#[derive(Clone, Copy, PartialEq, Eq)]
pub struct Refusal {
    why: Why,
}

#[derive(Clone, Copy, PartialEq, Eq)]
enum Why {
    Answer(Answer),
    /// The library has another layout than this crate, and was not called.
    Layouts {
        library: u32,
        here: u32,
    },
    /// The load of the sample's book was refused, and no other book was put.
    NoBook,
}

impl Refusal {
    /// The refusal that an answer is. An answer that is not what the call may give is one too.
    pub(crate) const fn of(answer: Answer) -> Refusal {
        Refusal { why: Why::Answer(answer) }
    }

    /// The refusal of a library of another layout: it was not called.
    pub(crate) const fn of_layout(library: u32, here: u32) -> Refusal {
        Refusal { why: Why::Layouts { library, here } }
    }

    /// The refusal of a shelf that has no book for the sample, since its load was refused.
    pub(crate) const fn no_book() -> Refusal {
        Refusal { why: Why::NoBook }
    }

    /// The whole answer; where the library was not called (another layout, a shelf without the sample's book), one with a
    /// number that the header does not have.
    pub const fn answer(&self) -> Answer {
        match self.why {
            Why::Answer(answer) => answer,
            Why::Layouts { .. } | Why::NoBook => Answer { number: u32::MAX, a: 0, b: 0, c: 0, d: 0 },
        }
    }

    /// The answer number by name; none for a number that the header does not have.
    pub fn name(&self) -> Option<Number> {
        self.answer().name()
    }

    /// Whether this is the refusal of that name.
    pub fn is(&self, name: Number) -> bool {
        self.name() == Some(name)
    }
}

impl fmt::Display for Refusal {
    fn fmt(&self, f: &mut fmt::Formatter<'_>) -> fmt::Result {
        let Answer { number, a, .. } = match self.why {
            Why::Answer(answer) => answer,
            Why::Layouts { library, here } => {
                return write!(f, "the library has layout {library}, and this crate is for layout {here}");
            }
            Why::NoBook => return write!(f, "the load of the sample's book was refused"),
        };
        let Some(name) = self.name() else {
            return write!(f, "answer {number}, which the header does not have");
        };
        write!(f, "{name}")?;
        match name {
            Number::Done | Number::Going => write!(f, ", but with numbers that the call does not give"),
            Number::Small => write!(f, ", {a} bytes are needed"),
            Number::Plan if a > 0 => write!(f, ", at offset {a}"),
            Number::Cut | Number::Number | Number::Format | Number::Rule | Number::Trail | Number::Many => {
                write!(f, ", at offset {a}")
            }
            _ => Ok(()),
        }
    }
}

/// The same words: `main` and `unwrap` print an error so.
impl fmt::Debug for Refusal {
    fn fmt(&self, f: &mut fmt::Formatter<'_>) -> fmt::Result {
        fmt::Display::fmt(self, f)
    }
}

impl Error for Refusal {}
