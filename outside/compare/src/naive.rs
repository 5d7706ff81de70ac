//! The store rules once more, one test for each part of document 01's sentence, with no thought of speed.

use model::{Plan, Slot, Store, NODE_PLACES};

use crate::stores::used;

/// The rules that a store breaks, by name. Rules that need a plan or counts in range are not asked of a store
/// without; that a node beyond the plan is on no path is not told apart from its count.
pub fn broken(store: &Store) -> Vec<&'static str> {
    let Some(plan) = Plan::numbered(store.plan) else { return vec!["plan"] };
    let mut names = Vec::new();
    let mut rule = |name, holds: bool| {
        if !holds {
            names.push(name);
        }
    };
    rule("clock", store.clock >= 1);
    rule("count within capacity", counts(store, plan));
    rule("unused nodes' counts zero", store.counts[plan.nodes()..].iter().all(|&count| count == 0));
    rule("unused places zero", unused(store));
    rule("idle slots zero", store.slots.iter().all(|slot| slot.running != 0 || *slot == Slot::default()));
    rule("running mark", store.slots.iter().all(|slot| slot.running <= 1));
    rule("searches on their paths", store.slots.iter().all(|slot| slot.running == 0 || stands(plan, slot)));
    if store.counts.iter().any(|&count| count as usize > NODE_PLACES) {
        return names;
    }
    let places = used(store);
    let node = |place: usize| place / NODE_PLACES;
    let pairs = || places.iter().flat_map(|&one| places.iter().map(move |&other| (one, other)));
    let (keys, kinds, values, stamps) = (&store.keys, &store.kinds, &store.values, &store.stamps);
    rule("keys rising", pairs().all(|(p, q)| node(p) != node(q) || p >= q || keys[p] < keys[q]));
    rule("kinds", places.iter().all(|&p| kinds[p] <= 1));
    rule("withdrawn value", places.iter().all(|&p| kinds[p] != 0 || values[p] == 0));
    let on_path = |p| node(p) >= plan.nodes() || path(plan, keys[p]).contains(&node(p));
    rule("copies on their paths", places.iter().all(|&p| on_path(p)));
    rule("stamp in range", places.iter().all(|&p| stamps[p] >= 1 && stamps[p] < store.clock));
    rule("stamps different", pairs().all(|(p, q)| p == q || stamps[p] != stamps[q]));
    let above = |p, q| node(p) < node(q) && keys[p] == keys[q];
    rule("stamps falling", pairs().all(|(p, q)| !above(p, q) || stamps[p] >= stamps[q]));
    names
}

/// The nodes of the key's path.
fn path(plan: &Plan, key: u32) -> Vec<usize> {
    let mut nodes = vec![0];
    while let Some(next) = plan.next(nodes[nodes.len() - 1], key) {
        nodes.push(next);
    }
    nodes
}

fn counts(store: &Store, plan: &Plan) -> bool {
    (0..plan.nodes()).all(|node| store.counts[node] as usize <= plan.capacities[node])
}

fn unused(store: &Store) -> bool {
    (0..store.keys.len()).all(|place| {
        let held = place % NODE_PLACES < store.counts[place / NODE_PLACES] as usize;
        held || (store.keys[place] | store.kinds[place] | store.values[place] | store.stamps[place]) == 0
    })
}

fn stands(plan: &Plan, slot: &Slot) -> bool {
    let nodes = path(plan, slot.key);
    nodes.get(slot.visits as usize).is_some_and(|&node| node == slot.node as usize)
}
