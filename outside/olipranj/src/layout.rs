//! The store's data as the header `olipranj.h` declares it.

use std::fmt;

/// The nodes that a store has room for.
pub const NODES: usize = 8;
/// The places for copies of each node,
pub const NODE_PLACES: usize = 64;
/// and of all.
pub const PLACES: usize = NODES * NODE_PLACES;
/// The search slots.
pub const SLOTS: usize = 8;

/// A search slot: 1 if a search runs in it, its key, its node, the nodes visited. An idle slot is all zero.
#[repr(C)]
#[derive(Clone, Copy, Debug, Default, PartialEq, Eq)]
#[allow(missing_docs)]
pub struct Slot {
    pub running: u32,
    pub key: u32,
    pub node: u32,
    pub visits: u32,
}

/// The store's numbers: node n has the places from `NODE_PLACES * n` on, and uses the first, as many as its count says.
///
/// Any numbers at all: every call answers BADSTORE if they break a store rule. The plain numbered calls are here; a
/// [`Store`](crate::Store) has the same calls by type, and only those that keep the store before when refused.
#[repr(C)]
#[derive(Clone, PartialEq, Eq)]
#[allow(missing_docs)]
pub struct Raw {
    pub plan: u32,
    pub clock: u32,
    pub counts: [u32; NODES],
    pub keys: [u32; PLACES],
    pub kinds: [u32; PLACES],
    pub values: [u32; PLACES],
    pub stamps: [u32; PLACES],
    pub slots: [Slot; SLOTS],
}

impl Raw {
    /// All zero: no good store, but a place to lay one down.
    pub const ZERO: Raw = Raw {
        plan: 0,
        clock: 0,
        counts: [0; NODES],
        keys: [0; PLACES],
        kinds: [0; PLACES],
        values: [0; PLACES],
        stamps: [0; PLACES],
        slots: [Slot { running: 0, key: 0, node: 0, visits: 0 }; SLOTS],
    };
}

impl Raw {
    /// Under a name plan, clock, counts and how many searches run; not all 2090 numbers.
    pub(crate) fn debug(&self, name: &str, f: &mut fmt::Formatter<'_>) -> fmt::Result {
        let searches = self.slots.iter().filter(|slot| slot.running != 0).count();
        f.debug_struct(name)
            .field("plan", &self.plan)
            .field("clock", &self.clock)
            .field("counts", &self.counts)
            .field("searches", &searches)
            .finish()
    }
}

impl fmt::Debug for Raw {
    fn fmt(&self, f: &mut fmt::Formatter<'_>) -> fmt::Result {
        self.debug("Raw", f)
    }
}
