//! Random good stores, built place by place and not by calls.

use std::collections::{BTreeMap, BTreeSet};

use model::{Plan, Slot, Store, LAST_CLOCK, NODE_PLACES};

use crate::kinds::a_plan;
use crate::random::Random;

/// Keys that lie close together, at the ends and around the halves.
pub fn pool(random: &mut Random) -> Vec<u32> {
    let size = random.pick(&[4, 12, 40, 150]);
    let centres: Vec<u32> = (0..random.between(1, 4)).map(|_| centre(random)).collect();
    let spread = random.pick(&[2, 40, 3000]);
    (0..size).map(|_| random.pick(&centres).wrapping_add(random.small(spread))).collect()
}

fn centre(random: &mut Random) -> u32 {
    let around = random.pick(&[0, 0x7fff_fff0, 0x8000_0000, u32::MAX - 20, 32, 64]);
    if random.once_in(3) {
        random.number()
    } else {
        around
    }
}

/// A random good store over a pool of keys.
pub fn good(random: &mut Random, keys: &[u32]) -> Store {
    let number = a_plan(random);
    let mut store = Store::empty(number);
    let plan = Plan::numbered(number).expect("a plan of the table");
    for node in 0..plan.nodes() {
        fill(random, &mut store, plan, node, keys);
    }
    stamp(random, &mut store);
    for slot in 0..store.slots.len() {
        if random.once_in(3) {
            let key = if random.once_in(4) { random.number() } else { random.pick(keys) };
            store.slots[slot] = search(random, plan, key);
        }
    }
    store
}

/// Fills a node: empty, some, or as full as the keys allow.
fn fill(random: &mut Random, store: &mut Store, plan: &Plan, node: usize, keys: &[u32]) {
    let mut wanted: Vec<u32> = keys.iter().copied().filter(|&key| plan.depth(node, key).is_some()).collect();
    if random.once_in(4) {
        wanted.extend((0..NODE_PLACES).map(|_| random.any()).filter(|&key| plan.depth(node, key).is_some()));
    }
    let most = match random.below(4) {
        0 => 0,
        1 => random.between(0, plan.capacities[node]),
        _ => plan.capacities[node],
    };
    while wanted.len() > most {
        let at = random.below(wanted.len());
        wanted.swap_remove(at);
    }
    wanted.sort_unstable();
    wanted.dedup();
    for (at, key) in wanted.iter().enumerate() {
        let place = node * NODE_PLACES + at;
        store.keys[place] = *key;
        store.kinds[place] = u32::from(!random.once_in(4));
        store.values[place] = if store.kinds[place] == 1 { random.number() } else { 0 };
    }
    store.counts[node] = wanted.len() as u32;
}

/// The places in use.
pub fn used(store: &Store) -> Vec<usize> {
    let of_node = |node: usize| (0..store.counts[node] as usize).map(move |at| node * NODE_PLACES + at);
    (0..store.counts.len()).flat_map(of_node).collect()
}

/// Gives all copies different stamps that fall down each key's path, and a clock above them.
fn stamp(random: &mut Random, store: &mut Store) {
    let places = used(store);
    let dense = random.once_in(2);
    let wanted = places.len() + random.below(3);
    let mut stamps = BTreeSet::new();
    while stamps.len() < wanted {
        let next = stamps.len() as u32 + 1;
        stamps.insert(if dense { next } else { random.number().clamp(1, LAST_CLOCK - 1) });
    }
    let mut stamps = Vec::from_iter(stamps);
    for &place in &places {
        store.stamps[place] = stamps.swap_remove(random.below(stamps.len()));
    }
    fall(store, &places);
    let highest = places.iter().map(|&place| store.stamps[place]).max().unwrap_or(0);
    store.clock = match random.below(4) {
        0 => LAST_CLOCK,
        1 => LAST_CLOCK - random.small(3).min(LAST_CLOCK - 1 - highest),
        _ => highest + 1,
    };
}

/// Sorts each key's stamps so that they fall with the node numbers.
fn fall(store: &mut Store, places: &[usize]) {
    let mut of_key: BTreeMap<u32, Vec<usize>> = BTreeMap::new();
    for &place in places {
        of_key.entry(store.keys[place]).or_default().push(place);
    }
    for places in of_key.values() {
        let mut stamps: Vec<u32> = places.iter().map(|&place| store.stamps[place]).collect();
        stamps.sort_unstable_by(|one, other| other.cmp(one));
        for (&place, stamp) in places.iter().zip(stamps) {
            store.stamps[place] = stamp;
        }
    }
}

/// A running search for a key, somewhere on its path.
pub fn search(random: &mut Random, plan: &Plan, key: u32) -> Slot {
    let mut slot = Slot { running: 1, key, node: 0, visits: 0 };
    while let Some(next) = plan.next(slot.node as usize, key) {
        if random.once_in(2) {
            break;
        }
        slot.node = next as u32;
        slot.visits += 1;
    }
    slot
}

/// A store in words, for a report.
pub fn describe(store: &Store) -> String {
    let mut text = format!("plan {} clock {} counts {:?}", store.plan, store.clock, store.counts);
    for place in (0..store.keys.len()).filter(|&place| {
        [store.keys[place], store.kinds[place], store.values[place], store.stamps[place]] != [0; 4]
    }) {
        text += &format!(
            "\n    place {place}: key {} kind {} value {} stamp {}",
            store.keys[place], store.kinds[place], store.values[place], store.stamps[place]
        );
    }
    for (number, slot) in store.slots.iter().enumerate().filter(|(_, slot)| **slot != Slot::default()) {
        text += &format!("\n    slot {number}: {slot:?}");
    }
    text
}
