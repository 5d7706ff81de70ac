//! The stores that calls are measured on, made by the model's calls.

use model::{carry, enter, fresh, start, Plan, Store, NODE_PLACES};

/// How full a store is.
#[derive(Clone, Copy, PartialEq)]
pub enum Fill {
    Fresh,
    Half,
    Full,
}

pub const FILLS: [Fill; 3] = [Fill::Fresh, Fill::Half, Fill::Full];

/// The lowest key of the upper half.
const UPPER: u32 = 0x8000_0000;

/// The key of line i: 16 lines to a sample, every other key; in turn of the lower and the upper half.
pub fn line(i: u32) -> u32 {
    let sample = i / 32;
    (i % 2) * UPPER + sample * 32 + i % 32 / 2 * 2
}

/// A line of a half, 0 or 1.
fn line_of(half: u32, i: u32) -> u32 {
    line(2 * i + half)
}

/// Fresh; or each node at half its capacity, and two searches running; or each node full, and seven searches running.
///
/// Nodes are filled from the highest number down, by entries and carries. Half of a node's copies are of lines that a
/// node below holds too, if there is one, and half of lines of its own.
pub fn make(number: u32, fill: Fill) -> Store {
    let mut store = Store::empty(1);
    fresh(&mut store, number);
    let (part, searches) = match fill {
        Fill::Fresh => return store,
        Fill::Half => (2, 2),
        Fill::Full => (1, 7),
    };
    let plan = Plan::numbered(number).expect("a plan of the table");
    for node in (0..plan.nodes()).rev() {
        fill_node(&mut store, plan, node, plan.capacities[node] / part);
        assert_eq!(store.counts[node] as usize, plan.capacities[node] / part);
    }
    for search in 0..searches {
        start(&mut store, line(search));
    }
    assert!(model::good(&store));
    store
}

/// Enters lines at the root, eight at most, and carries them down to the node, until it holds so many.
fn fill_node(store: &mut Store, plan: &Plan, node: usize, wanted: usize) {
    let mut next = 0;
    while (store.counts[node] as usize) < wanted {
        let missing = wanted - store.counts[node] as usize;
        let mut entered = 0;
        while entered < missing.min(8) {
            let key = choose(node, next);
            next += 1;
            if plan.depth(node, key).is_some() && !has(store, node, key) {
                entered += usize::from(enter(store, key, 100 + next).is_done());
            }
        }
        descend(store, plan, node);
    }
}

/// Every other line is one of the first, the rest are of the node alone.
fn choose(node: usize, next: u32) -> u32 {
    let own = 1000 * (node as u32 + 1);
    let i = next / 4;
    let first = if next % 4 < 2 { i } else { own + i };
    line_of(next % 2, first)
}

/// The keys that a node holds.
fn held(store: &Store, node: usize) -> &[u32] {
    &store.keys[node * NODE_PLACES..node * NODE_PLACES + store.counts[node] as usize]
}

fn has(store: &Store, node: usize, key: u32) -> bool {
    held(store, node).contains(&key)
}

/// Carries along all edges on the way from the root to the node.
fn descend(store: &mut Store, plan: &Plan, node: usize) {
    for from in 0..node {
        for (edge, leads) in plan.edges[from].iter().enumerate() {
            if leads.target <= node {
                carry(store, from as u32, edge as u32);
            }
        }
    }
}

#[cfg(test)]
mod tests {
    use super::*;

    /// The nodes below a node that hold a key.
    fn below(store: &Store, plan: &Plan, node: usize, key: u32) -> usize {
        (node + 1..plan.nodes()).filter(|&lower| has(store, lower, key)).count()
    }

    #[test]
    fn half_of_a_node_is_held_below() {
        for (number, fill) in
            [(1, Fill::Half), (1, Fill::Full), (2, Fill::Full), (3, Fill::Half), (3, Fill::Full)]
        {
            let store = make(number, fill);
            let plan = Plan::numbered(number).expect("a plan of the table");
            for node in (0..plan.nodes()).filter(|&node| !plan.edges[node].is_empty()) {
                let keys = held(&store, node);
                let again = keys.iter().filter(|&&key| below(&store, plan, node, key) > 0).count();
                assert_eq!(2 * again, keys.len(), "plan {number}, node {node}");
            }
        }
    }
}
