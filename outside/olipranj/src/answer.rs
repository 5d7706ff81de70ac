//! Answers, as the library gives them.

use std::fmt;

use crate::Refusal;

/// An answer: its number, and four numbers a, b, c, d, zero unless the call names them.
#[must_use = "the answer may be a refusal"]
#[repr(C)]
#[derive(Clone, Copy, Debug, PartialEq, Eq)]
#[allow(missing_docs)]
pub struct Answer {
    pub number: u32,
    pub a: u64,
    pub b: u64,
    pub c: u64,
    pub d: u64,
}

impl Answer {
    /// Whether the call was done.
    #[must_use]
    pub const fn is_done(&self) -> bool {
        self.number == Number::Done as u32
    }

    /// The answer number by name; none for a number that the header does not have.
    #[must_use]
    pub fn name(&self) -> Option<Number> {
        Number::of(self.number)
    }

    /// The result of an ended search, if the line has one: its value and stamp.
    #[must_use]
    pub const fn result(&self) -> Option<(u64, u64)> {
        if self.is_done() && self.a == 2 {
            Some((self.b, self.c))
        } else {
            None
        }
    }

    /// This answer if it is DONE, else the refusal.
    pub fn done(self) -> Result<Answer, Refusal> {
        if self.is_done() {
            Ok(self)
        } else {
            Err(Refusal::of(self))
        }
    }
}

/// The answer numbers.
#[derive(Clone, Copy, Debug, PartialEq, Eq)]
#[repr(u32)]
#[allow(missing_docs)]
pub enum Number {
    Done,
    Going,
    BadStore,
    Plan,
    Clock,
    Full,
    Node,
    Edge,
    Slots,
    Slot,
    Idle,
    Small,
    Sample,
    Cut,
    Number,
    Format,
    Rule,
    Trail,
    Op,
    Many,
}

impl Number {
    /// All answer numbers, each at its own place.
    pub const ALL: [Self; 20] = [
        Self::Done,
        Self::Going,
        Self::BadStore,
        Self::Plan,
        Self::Clock,
        Self::Full,
        Self::Node,
        Self::Edge,
        Self::Slots,
        Self::Slot,
        Self::Idle,
        Self::Small,
        Self::Sample,
        Self::Cut,
        Self::Number,
        Self::Format,
        Self::Rule,
        Self::Trail,
        Self::Op,
        Self::Many,
    ];

    /// The name of a number, if it is an answer number.
    pub fn of(number: u32) -> Option<Number> {
        Self::ALL.get(usize::try_from(number).ok()?).copied()
    }

    /// What the answer means.
    pub const fn meaning(self) -> &'static str {
        match self {
            Self::Done => "the call was done",
            Self::Going => "the search has not ended",
            Self::BadStore => "the store breaks a store rule",
            Self::Plan => "there is no plan of this number",
            Self::Clock => "the clock has its last value, the store takes no more entries",
            Self::Full => "the root is full and has no copy of the line",
            Self::Node => "the plan has no such node",
            Self::Edge => "the node has no such edge",
            Self::Slots => "a search runs in every slot",
            Self::Slot => "there is no such slot",
            Self::Idle => "no search runs in the slot",
            Self::Small => "the buffer is too short",
            Self::Sample => "the sample is too large",
            Self::Cut => "the bytes end before a number or inside it",
            Self::Number => "a number is not in its shortest form, or is above 32 bits",
            Self::Format => "the image has another format",
            Self::Rule => "the image breaks a store rule",
            Self::Trail => "bytes are left after the image",
            Self::Op => "no step has this number",
            Self::Many => "bytes are left after the last step",
        }
    }
}

/// Name, number and meaning: `FULL (5): the root is full and has no copy of the line`.
impl fmt::Display for Number {
    fn fmt(&self, f: &mut fmt::Formatter<'_>) -> fmt::Result {
        let name = format!("{self:?}").to_uppercase();
        write!(f, "{name} ({}): {}", *self as u32, self.meaning())
    }
}
