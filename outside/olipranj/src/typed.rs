//! What accepted calls give, by type.

use std::fmt;

use crate::{Answer, Number, Refusal};

/// A stamp. Of two copies of one store the one with the greater stamp is newer.
#[derive(Clone, Copy, Debug, PartialEq, Eq, PartialOrd, Ord, Hash)]
pub struct Stamp(pub u32);

impl fmt::Display for Stamp {
    fn fmt(&self, f: &mut fmt::Formatter<'_>) -> fmt::Result {
        self.0.fmt(f)
    }
}

/// What a look, or a search that ended, found for a line.
#[must_use]
#[derive(Clone, Copy, Debug, PartialEq, Eq)]
pub enum Look {
    /// The line was never entered.
    Never,
    /// The line is withdrawn.
    Withdrawn(Stamp),
    /// The line's current result.
    #[allow(missing_docs)]
    Result { value: u32, stamp: Stamp },
}

impl Look {
    /// The current result's value, if the line has a result.
    pub const fn value(self) -> Option<u32> {
        match self {
            Look::Result { value, .. } => Some(value),
            Look::Never | Look::Withdrawn(_) => None,
        }
    }
}

/// What a search's visit of one node gave.
#[must_use]
#[derive(Clone, Copy, Debug, PartialEq, Eq)]
#[allow(missing_docs)]
pub enum Visit {
    /// The search goes on at this node, after so many visits.
    Going { node: u32, visits: u32 },
    /// The search ended, and its slot is idle.
    Ended { look: Look, visits: u32 },
}

/// What a carry did: the copies carried, those discarded for them, those of the edge's lines left in the node.
#[must_use]
#[derive(Clone, Copy, Debug, PartialEq, Eq)]
#[allow(missing_docs)]
pub struct Carried {
    pub carried: u32,
    pub discarded: u32,
    pub left: u32,
}

impl Answer {
    /// One of the answer's numbers that is of 32 bits.
    fn narrow(self, number: u64) -> Result<u32, Refusal> {
        u32::try_from(number).map_err(|_| Refusal::of(self))
    }

    /// The answer's a, after DONE.
    pub(crate) fn first(self) -> Result<u32, Refusal> {
        let answer = self.done()?;
        answer.narrow(answer.a)
    }

    pub(crate) fn stamp(self) -> Result<Stamp, Refusal> {
        self.first().map(Stamp)
    }

    pub(crate) fn length(self) -> Result<usize, Refusal> {
        let answer = self.done()?;
        usize::try_from(answer.a).map_err(|_| Refusal::of(answer))
    }

    pub(crate) fn carried(self) -> Result<Carried, Refusal> {
        let answer = self.done()?;
        let Answer { a, b, c, .. } = answer;
        Ok(Carried { carried: answer.narrow(a)?, discarded: answer.narrow(b)?, left: answer.narrow(c)? })
    }

    pub(crate) fn look(self) -> Result<Look, Refusal> {
        let answer = self.done()?;
        let stamp = Stamp(answer.narrow(answer.c)?);
        match answer.a {
            0 => Ok(Look::Never),
            1 => Ok(Look::Withdrawn(stamp)),
            2 => Ok(Look::Result { value: answer.narrow(answer.b)?, stamp }),
            _ => Err(Refusal::of(answer)),
        }
    }

    pub(crate) fn visit(self) -> Result<Visit, Refusal> {
        if self.name() == Some(Number::Going) {
            return Ok(Visit::Going { node: self.narrow(self.a)?, visits: self.narrow(self.b)? });
        }
        Ok(Visit::Ended { look: self.look()?, visits: self.narrow(self.d)? })
    }
}
