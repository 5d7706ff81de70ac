//! Answers: a number of the table in document 01, and four numbers.

/// The names of document 01's answer numbers.
#[derive(Clone, Copy, Debug, PartialEq, Eq)]
#[repr(u32)]
#[allow(missing_docs)]
pub enum Number {
    Done = 0,
    Going = 1,
    BadStore = 2,
    Plan = 3,
    Clock = 4,
    Full = 5,
    Node = 6,
    Edge = 7,
    Slots = 8,
    Slot = 9,
    Idle = 10,
    Small = 11,
    Sample = 12,
    Cut = 13,
    Number = 14,
    Format = 15,
    Rule = 16,
    Trail = 17,
    Op = 18,
    Many = 19,
}

/// An answer's number and its a, b, c, d.
#[repr(C)]
#[derive(Clone, Copy, Debug, PartialEq, Eq)]
#[allow(missing_docs)]
pub struct Answer {
    pub number: u32,
    pub a: u64,
    pub b: u64,
    pub c: u64,
    pub d: u64,
}

impl Answer {
    /// An answer with all four numbers.
    pub const fn full(number: Number, a: u64, b: u64, c: u64, d: u64) -> Answer {
        Answer { number: number as u32, a, b, c, d }
    }

    /// An answer with a alone.
    pub const fn with(number: Number, a: u64) -> Answer {
        Answer::full(number, a, 0, 0, 0)
    }

    /// An answer whose four numbers are 0.
    pub const fn bare(number: Number) -> Answer {
        Answer::with(number, 0)
    }

    /// Whether this is the answer DONE.
    pub const fn is_done(&self) -> bool {
        self.number == Number::Done as u32
    }
}
