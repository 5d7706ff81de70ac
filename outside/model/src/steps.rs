//! Entries, carries and searches.

use crate::plan::NODE_PLACES;
use crate::rules::checked;
use crate::store::{Held, LAST_CLOCK, SLOTS};
use crate::{Answer, Edge, Number, Plan, Slot, Store};

/// Enters a result.
pub fn enter(store: &mut Store, key: u32, value: u32) -> Answer {
    entry(store, key, 1, value)
}

/// Withdraws a line.
pub fn withdraw(store: &mut Store, key: u32) -> Answer {
    entry(store, key, 0, 0)
}

/// An entry either way: replaces the root's copy of the key, or adds one.
fn entry(store: &mut Store, key: u32, kind: u32, value: u32) -> Answer {
    let Some(plan) = checked(store) else { return Answer::bare(Number::BadStore) };
    if store.clock == LAST_CLOCK {
        return Answer::bare(Number::Clock);
    }
    let stamp = store.clock;
    let held = Held { key, kind, value, stamp };
    match store.node_keys(0).binary_search(&key) {
        Ok(place) => store.put(place, held),
        Err(_) if store.counts[0] as usize == plan.capacities[0] => return Answer::bare(Number::Full),
        Err(place) => store.insert(0, place, held),
    }
    store.clock += 1;
    Answer::with(Number::Done, stamp.into())
}

/// Carries the node's copies whose keys the edge holds to the edge's target.
pub fn carry(store: &mut Store, node: u32, edge: u32) -> Answer {
    let Some(plan) = checked(store) else { return Answer::bare(Number::BadStore) };
    let node = node as usize;
    let Some(edges) = plan.edges.get(node) else { return Answer::bare(Number::Node) };
    let Some(edge) = edges.get(edge as usize) else { return Answer::bare(Number::Edge) };
    let decision = decide(store, node, edge, plan.capacities[edge.target]);
    merge(store, node, edge.target, decision.added);
    leave(store, node, decision.moved);
    let carried = u64::from(decision.moved.count_ones());
    let added = u64::from(decision.added.count_ones());
    Answer::full(Number::Done, carried, carried - added, decision.left, 0)
}

/// What a carry does with a node's copies; bit i stands for copy i.
struct Decision {
    /// The copies that leave the node.
    moved: u64,
    /// Those of them whose keys the target lacks.
    added: u64,
    /// How many copies in the edge's range stay.
    left: u64,
}

/// Decides copy by copy in rising key order, and replaces the target's copies where it has the key.
fn decide(store: &mut Store, node: usize, edge: &Edge, capacity: usize) -> Decision {
    let mut decision = Decision { moved: 0, added: 0, left: 0 };
    let mut free = capacity - store.counts[edge.target] as usize;
    for at in 0..store.counts[node] as usize {
        let held = store.get(node * NODE_PLACES + at);
        if !edge.holds(held.key) {
            continue;
        }
        if let Some(place) = store.find(edge.target, held.key) {
            store.put(place, held);
            decision.moved |= 1 << at;
        } else if free > 0 {
            free -= 1;
            decision.moved |= 1 << at;
            decision.added |= 1 << at;
        } else {
            decision.left += 1;
        }
    }
    decision
}

/// Merges the node's added copies into the target, from the highest key down.
fn merge(store: &mut Store, node: usize, target: usize, added: u64) {
    let first = target * NODE_PLACES;
    let mut held = first + store.counts[target] as usize;
    let mut free = held + added.count_ones() as usize;
    store.counts[target] += added.count_ones();
    let mut rest = added;
    while rest != 0 {
        let at = 63 - rest.leading_zeros() as usize;
        let copy = store.get(node * NODE_PLACES + at);
        free -= 1;
        if held > first && store.keys[held - 1] > copy.key {
            held -= 1;
            store.put(free, store.get(held));
        } else {
            store.put(free, copy);
            rest ^= 1 << at;
        }
    }
}

/// Closes the gaps that the moved copies leave in the node.
fn leave(store: &mut Store, node: usize, moved: u64) {
    let first = node * NODE_PLACES;
    let end = first + store.counts[node] as usize;
    let mut free = first;
    for place in first..end {
        if moved >> (place - first) & 1 == 0 {
            store.put(free, store.get(place));
            free += 1;
        }
    }
    for column in [&mut store.keys, &mut store.kinds, &mut store.values, &mut store.stamps] {
        column[free..end].fill(0);
    }
    store.counts[node] -= moved.count_ones();
}

/// Starts a search in the lowest idle slot.
pub fn start(store: &mut Store, key: u32) -> Answer {
    if checked(store).is_none() {
        return Answer::bare(Number::BadStore);
    }
    let Some(slot) = store.slots.iter().position(|slot| slot.running == 0) else {
        return Answer::bare(Number::Slots);
    };
    store.slots[slot] = Slot { running: 1, key, node: 0, visits: 0 };
    Answer::with(Number::Done, slot as u64)
}

/// The plan of a good store and the running search of a slot, or the refusal.
fn running(store: &Store, slot: u32) -> Result<(&'static Plan, Slot), Answer> {
    let Some(plan) = checked(store) else { return Err(Answer::bare(Number::BadStore)) };
    if slot as usize >= SLOTS {
        return Err(Answer::bare(Number::Slot));
    }
    match store.slots[slot as usize] {
        Slot { running: 0, .. } => Err(Answer::bare(Number::Idle)),
        search => Ok((plan, search)),
    }
}

/// Lets the search of a slot visit one node.
pub fn step(store: &mut Store, slot: u32) -> Answer {
    let (plan, search) = match running(store, slot) {
        Ok(found) => found,
        Err(refusal) => return refusal,
    };
    let visits = search.visits + 1;
    let node = search.node as usize;
    let found = store.find(node, search.key);
    if found.is_none() {
        if let Some(next) = plan.next(node, search.key) {
            store.slots[slot as usize] = Slot { node: next as u32, visits, ..search };
            return Answer::full(Number::Going, next as u64, visits.into(), 0, 0);
        }
    }
    store.slots[slot as usize] = Slot::default();
    ended(store, found, visits)
}

/// The answer of an ended search.
fn ended(store: &Store, found: Option<usize>, visits: u32) -> Answer {
    let Some(place) = found else { return Answer::full(Number::Done, 0, 0, 0, visits.into()) };
    let copy = store.get(place);
    Answer::full(Number::Done, u64::from(copy.kind) + 1, copy.value.into(), copy.stamp.into(), visits.into())
}

/// Ends the search of a slot.
pub fn cancel(store: &mut Store, slot: u32) -> Answer {
    if let Err(refusal) = running(store, slot) {
        return refusal;
    }
    store.slots[slot as usize] = Slot::default();
    Answer::bare(Number::Done)
}

/// A whole search at once.
pub fn look(store: &Store, key: u32) -> Answer {
    let Some(plan) = checked(store) else { return Answer::bare(Number::BadStore) };
    let mut node = 0;
    let mut visits = 1;
    loop {
        if let Some(place) = store.find(node, key) {
            return ended(store, Some(place), visits);
        }
        let Some(next) = plan.next(node, key) else { return ended(store, None, visits) };
        node = next;
        visits += 1;
    }
}
