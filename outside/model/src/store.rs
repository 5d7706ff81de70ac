//! The store's data: columns of places, as many to each node.

use crate::plan::{ALL_NODES, NODE_PLACES};
use crate::{Answer, Number, Plan};

/// The places of all nodes.
pub const PLACES: usize = ALL_NODES * NODE_PLACES;
/// The search slots of a store.
pub const SLOTS: usize = 8;
/// The clock's last value.
pub const LAST_CLOCK: u32 = u32::MAX;

/// A search slot; all zero while idle.
#[repr(C)]
#[derive(Clone, Copy, Debug, Default, PartialEq, Eq)]
#[allow(missing_docs)]
pub struct Slot {
    pub running: u32,
    pub key: u32,
    pub node: u32,
    pub visits: u32,
}

/// A store, laid out as at the library's interface.
#[repr(C)]
#[derive(Clone, Debug, PartialEq, Eq)]
#[allow(missing_docs)]
pub struct Store {
    pub plan: u32,
    pub clock: u32,
    pub counts: [u32; ALL_NODES],
    pub keys: [u32; PLACES],
    pub kinds: [u32; PLACES],
    pub values: [u32; PLACES],
    pub stamps: [u32; PLACES],
    pub slots: [Slot; SLOTS],
}

/// What a place holds.
#[derive(Clone, Copy, Debug, PartialEq, Eq)]
pub(crate) struct Held {
    pub key: u32,
    pub kind: u32,
    pub value: u32,
    pub stamp: u32,
}

impl Store {
    /// A fresh store of a plan: clock 1, nothing held, all slots idle. The plan's number is not tested.
    pub const fn empty(plan: u32) -> Store {
        let column = [0; PLACES];
        let idle = Slot { running: 0, key: 0, node: 0, visits: 0 };
        Store {
            plan,
            clock: 1,
            counts: [0; ALL_NODES],
            keys: column,
            kinds: column,
            values: column,
            stamps: column,
            slots: [idle; SLOTS],
        }
    }

    /// The keys of a node.
    pub(crate) fn node_keys(&self, node: usize) -> &[u32] {
        let first = node * NODE_PLACES;
        &self.keys[first..first + self.counts[node] as usize]
    }

    /// The look in one node: the place of the key's copy, or nothing.
    pub(crate) fn find(&self, node: usize, key: u32) -> Option<usize> {
        self.node_keys(node).binary_search(&key).ok().map(|at| node * NODE_PLACES + at)
    }

    pub(crate) fn get(&self, place: usize) -> Held {
        Held {
            key: self.keys[place],
            kind: self.kinds[place],
            value: self.values[place],
            stamp: self.stamps[place],
        }
    }

    pub(crate) fn put(&mut self, place: usize, held: Held) {
        self.keys[place] = held.key;
        self.kinds[place] = held.kind;
        self.values[place] = held.value;
        self.stamps[place] = held.stamp;
    }

    /// Puts a copy at a place of a node and moves those from there on up by one.
    pub(crate) fn insert(&mut self, node: usize, place: usize, held: Held) {
        let end = node * NODE_PLACES + self.counts[node] as usize;
        for column in [&mut self.keys, &mut self.kinds, &mut self.values, &mut self.stamps] {
            column.copy_within(place..end, place + 1);
        }
        self.put(place, held);
        self.counts[node] += 1;
    }
}

/// Makes the store a fresh one of the plan, or answers PLAN and makes it a fresh one of plan 1.
pub fn fresh(store: &mut Store, plan: u32) -> Answer {
    if Plan::numbered(plan).is_none() {
        *store = Store::empty(1);
        return Answer::bare(Number::Plan);
    }
    *store = Store::empty(plan);
    Answer::bare(Number::Done)
}
