//! When to carry: a habit that works for every plan.

use crate::{Entry, Line, Number, Refusal, Stamp, Store};

/// The most nodes and edges of a plan, by the plan rules.
const NODES: u32 = crate::NODES as u32;
const EDGES: u32 = 4;

/// Takes an entry. If the root is full, copies are carried down until it is not, or until no carry moves a copy.
pub(crate) fn take(store: &mut Store, line: Line, entry: Entry) -> Result<Stamp, Refusal> {
    loop {
        match store.take(line, entry) {
            Err(refusal) if refusal.is(Number::Full) && carry_all(store) > 0 => {}
            ended => return ended,
        }
    }
}

/// Carries along every edge once, from the last node up to the root, and gives the number of copies carried.
///
/// So a node is emptied before the nodes above it are carried into it. A copy only ever moves down, so there are only
/// so many passes that move one.
pub(crate) fn carry_all(store: &mut Store) -> u32 {
    let nodes = (0..NODES).rev();
    nodes.map(|node| (0..EDGES).map_while(|edge| carried(store, node, edge)).sum::<u32>()).sum()
}

/// The copies carried; nothing if there is no such node or edge.
fn carried(store: &mut Store, node: u32, edge: u32) -> Option<u32> {
    store.carry(node, edge).ok().map(|counts| counts.carried)
}
