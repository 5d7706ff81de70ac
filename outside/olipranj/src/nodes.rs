//! A store's nodes and copies, to read.

use crate::{capacities, Entry, Line, Raw, Stamp, NODE_PLACES};

/// A copy that a node holds.
#[derive(Clone, Copy, Debug, PartialEq, Eq)]
#[allow(missing_docs)]
pub struct Held {
    pub line: Line,
    pub entry: Entry,
    pub stamp: Stamp,
}

/// A node of a store.
#[derive(Clone, Copy, Debug)]
pub struct Node<'a> {
    number: u32,
    capacity: u32,
    raw: &'a Raw,
}

impl<'a> Node<'a> {
    /// The node's number; the root's is 0.
    pub const fn number(&self) -> u32 {
        self.number
    }

    /// The most copies that the node may hold.
    pub const fn capacity(&self) -> u32 {
        self.capacity
    }

    /// The node's copies by rising line.
    pub fn copies(&self) -> impl Iterator<Item = Held> + 'a {
        let raw = self.raw;
        let node = self.number as usize;
        let count = raw.counts.get(node).map_or(0, |&count| count as usize).min(NODE_PLACES);
        (0..count).map(move |at| held(raw, node * NODE_PLACES + at))
    }
}

/// What a place below the last holds.
fn held(raw: &Raw, place: usize) -> Held {
    let entry = if raw.kinds[place] == 0 { Entry::Withdrawn } else { Entry::Result(raw.values[place]) };
    Held { line: Line::of_key(raw.keys[place]), entry, stamp: Stamp(raw.stamps[place]) }
}

/// The nodes of the store's plan, the root first.
pub(crate) fn nodes(raw: &Raw) -> impl Iterator<Item = Node<'_>> {
    (0..).zip(capacities(raw.plan)).map(move |(number, &capacity)| Node { number, capacity, raw })
}
