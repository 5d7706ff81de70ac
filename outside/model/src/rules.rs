//! The store rules.

use crate::plan::{ALL_NODES, NODE_PLACES};
use crate::store::PLACES;
use crate::{Plan, Slot, Store};

/// Whether a store meets all store rules.
pub fn good(store: &Store) -> bool {
    checked(store).is_some()
}

/// The plan of a store that meets all store rules.
pub(crate) fn checked(store: &Store) -> Option<&'static Plan> {
    let plan = Plan::numbered(store.plan)?;
    let good = store.clock >= 1
        && counts_fit(store, plan)
        && (0..ALL_NODES).all(|node| node_is_good(store, node))
        && stamps_differ(store, plan)
        && copies_are_placed(store, plan)
        && store.slots.iter().all(|slot| slot_is_good(plan, slot));
    good.then_some(plan)
}

/// Counts within capacity; unused nodes' counts zero.
fn counts_fit(store: &Store, plan: &Plan) -> bool {
    let capacity = |node| plan.capacities.get(node).copied().unwrap_or(0);
    store.counts.iter().enumerate().all(|(node, &count)| count as usize <= capacity(node))
}

/// A node by itself: keys strictly rising, kinds, values and stamps in range, unused places all zero.
fn node_is_good(store: &Store, node: usize) -> bool {
    let first = node * NODE_PLACES;
    let end = first + store.counts[node] as usize;
    let last = first + NODE_PLACES;
    store.keys[first..end].windows(2).all(|pair| pair[0] < pair[1])
        && (first..end).all(|place| copy_is_good(store, place))
        && all_zero(&store.keys[end..last])
        && all_zero(&store.kinds[end..last])
        && all_zero(&store.values[end..last])
        && all_zero(&store.stamps[end..last])
}

/// Kind 0 or 1, a withdrawn copy's value 0, the stamp from 1 to clock - 1.
fn copy_is_good(store: &Store, place: usize) -> bool {
    let held = store.get(place);
    (held.kind == 1 || (held.kind == 0 && held.value == 0)) && held.stamp >= 1 && held.stamp < store.clock
}

/// Without a way out in the middle, so that it is compiled to wide instructions.
fn all_zero(numbers: &[u32]) -> bool {
    numbers.iter().fold(0, |seen, &number| seen | number) == 0
}

/// Stamps all different: sorted in a column of their own, no two neighbours are equal.
fn stamps_differ(store: &Store, plan: &Plan) -> bool {
    let mut column = [0; PLACES];
    let mut length = 0;
    for node in 0..plan.nodes() {
        let first = node * NODE_PLACES;
        let count = store.counts[node] as usize;
        column[length..length + count].copy_from_slice(&store.stamps[first..first + count]);
        length += count;
    }
    let stamps = &mut column[..length];
    stamps.sort_unstable();
    stamps.windows(2).all(|pair| pair[0] != pair[1])
}

/// Each copy in a node of its key's path, and its stamp above that of the key's next copy down the path.
fn copies_are_placed(store: &Store, plan: &Plan) -> bool {
    (0..plan.nodes()).all(|node| {
        store.node_keys(node).iter().enumerate().all(|(at, &key)| {
            let stamp = store.stamps[node * NODE_PLACES + at];
            plan.depth(node, key).is_some() && below(store, plan, node, key).is_none_or(|older| older < stamp)
        })
    })
}

/// The stamp of the key's first copy below a node of its path.
fn below(store: &Store, plan: &Plan, node: usize, key: u32) -> Option<u32> {
    let mut at = node;
    loop {
        at = plan.next(at, key)?;
        if let Some(place) = store.find(at, key) {
            return Some(store.stamps[place]);
        }
    }
}

/// An idle slot all zero; a running search on its key's path, its visits the path nodes above it.
fn slot_is_good(plan: &Plan, slot: &Slot) -> bool {
    match slot.running {
        0 => *slot == Slot::default(),
        1 => {
            let node = slot.node as usize;
            node < plan.nodes() && plan.depth(node, slot.key) == Some(slot.visits)
        }
        _ => false,
    }
}
