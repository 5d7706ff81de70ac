//! Ways to break one store rule of a good store, and no other.

use model::{Plan, Slot, Store, ALL_NODES, NODE_PLACES, PLACES, PLANS};

use crate::random::Random;
use crate::stores::used;

/// Breaks a rule in a good store; nothing if this store gives no occasion.
type Way = fn(&mut Random, &mut Store) -> Option<()>;

/// Each way: the rule that it breaks, by its name in `naive`, what it does, and the doing.
pub const WAYS: &[(&str, &str, Way)] = &[
    ("plan", "plan 0", |_, store| set(&mut store.plan, 0)),
    ("plan", "a plan past the table", |random, store| {
        set(&mut store.plan, from(random, PLANS.len() as u32 + 1))
    }),
    ("clock", "clock 0 in an empty store", clock_0),
    ("count within capacity", "a copy more than a node holds", one_too_many),
    ("count within capacity", "a count far above capacity", count_far_above),
    ("unused nodes' counts zero", "a copy in a node that the plan lacks", copy_in_no_node),
    ("unused places zero", "a key in an unused place", |random, store| {
        unused(random, store, |s| &mut s.keys)
    }),
    ("unused places zero", "a kind in an unused place", |random, store| {
        unused(random, store, |s| &mut s.kinds)
    }),
    ("unused places zero", "a value in an unused place", |random, store| {
        unused(random, store, |s| &mut s.values)
    }),
    ("unused places zero", "a stamp in an unused place", |random, store| {
        unused(random, store, |s| &mut s.stamps)
    }),
    ("idle slots zero", "a key in an idle slot", |random, store| idle(random, store, |slot| &mut slot.key)),
    ("idle slots zero", "a node in an idle slot", |random, store| idle(random, store, |slot| &mut slot.node)),
    ("idle slots zero", "visits in an idle slot", |random, store| {
        idle(random, store, |slot| &mut slot.visits)
    }),
    ("running mark", "a running mark above 1", mark_above_1),
    ("searches on their paths", "a search at a node off its path", search_off_path),
    ("searches on their paths", "a search at no node of the plan", search_at_no_node),
    ("searches on their paths", "a visit too many or too few", visits_off),
    ("keys rising", "two equal keys in a node", keys_equal),
    ("keys rising", "two neighbours exchanged", neighbours_exchanged),
    ("kinds", "a kind above 1", kind_above_1),
    ("withdrawn value", "a withdrawn copy with a value", withdrawn_value),
    ("copies on their paths", "a key of the other half", off_path),
    ("stamp in range", "stamp 0", stamp_0),
    ("stamp in range", "a stamp not below the clock", stamp_high),
    ("stamps different", "two equal stamps in a node", |random, store| equal_stamps(random, store, true)),
    ("stamps different", "two equal stamps in two nodes", |random, store| equal_stamps(random, store, false)),
    ("stamps falling", "a key's two stamps exchanged", stamps_exchanged),
];

fn set(number: &mut u32, to: u32) -> Option<()> {
    *number = to;
    Some(())
}

/// The bound itself half of the times, else any number from it on.
fn from(random: &mut Random, bound: u32) -> u32 {
    if random.once_in(2) {
        bound
    } else {
        random.number().max(bound)
    }
}

fn plan_of(store: &Store) -> &'static Plan {
    Plan::numbered(store.plan).expect("a good store")
}

fn one_of(random: &mut Random, places: Vec<usize>) -> Option<usize> {
    (!places.is_empty()).then(|| random.pick(&places))
}

/// Of a store that holds a copy clock 0 breaks the stamps' range as well.
fn clock_0(_: &mut Random, store: &mut Store) -> Option<()> {
    for place in used(store) {
        (store.keys[place], store.kinds[place], store.values[place], store.stamps[place]) = (0, 0, 0, 0);
    }
    store.counts = [0; ALL_NODES];
    set(&mut store.clock, 0)
}

/// A stamp that no copy has.
fn free_stamp(store: &Store) -> Option<u32> {
    (1..store.clock).find(|stamp| used(store).iter().all(|&place| store.stamps[place] != *stamp))
}

/// In a full node that has a place left: adds one more copy with a new key and a stamp of its own.
fn one_too_many(random: &mut Random, store: &mut Store) -> Option<()> {
    let plan = plan_of(store);
    let full = |&node: &usize| {
        let capacity = plan.capacities[node];
        store.counts[node] as usize == capacity && capacity < NODE_PLACES
    };
    let node = one_of(random, (0..plan.nodes()).filter(full).collect())?;
    let place = node * NODE_PLACES + store.counts[node] as usize;
    let key = store.keys[place - 1].checked_add(1)?;
    let known = used(store).iter().any(|&place| store.keys[place] == key);
    if known || plan.depth(node, key).is_none() {
        return None;
    }
    store.stamps[place] = free_stamp(store)?;
    store.keys[place] = key;
    store.counts[node] += 1;
    Some(())
}

fn count_far_above(random: &mut Random, store: &mut Store) -> Option<()> {
    let node = random.below(plan_of(store).nodes());
    let width = NODE_PLACES as u32;
    let count =
        random.pick(&[width + 1, width + 2, 8 * width, 8 * width + 1, 0x8000_0000, u32::MAX, 0x4000_0001]);
    set(&mut store.counts[node], count)
}

/// A copy that would be good but for its node; no other copy has its key.
fn copy_in_no_node(random: &mut Random, store: &mut Store) -> Option<()> {
    let node = random.between(plan_of(store).nodes(), ALL_NODES - 1);
    let place = node * NODE_PLACES;
    let key = random.number();
    if used(store).iter().any(|&place| store.keys[place] == key) {
        return None;
    }
    store.stamps[place] = free_stamp(store)?;
    store.keys[place] = key;
    set(&mut store.counts[node], 1)
}

fn unused(
    random: &mut Random,
    store: &mut Store,
    column: fn(&mut Store) -> &mut [u32; PLACES],
) -> Option<()> {
    let held = used(store);
    let mut free: Vec<usize> = (0..PLACES).filter(|place| !held.contains(place)).collect();
    if random.once_in(2) {
        let first = |place: &usize| store.counts[place / NODE_PLACES] as usize == place % NODE_PLACES;
        let last = |place: &usize| place % NODE_PLACES == NODE_PLACES - 1;
        free.retain(|place| first(place) || last(place));
    }
    let place = one_of(random, free)?;
    set(&mut column(store)[place], from(random, 1))
}

fn slots(store: &Store, running: u32) -> Vec<usize> {
    (0..store.slots.len()).filter(|&slot| store.slots[slot].running == running).collect()
}

fn idle(random: &mut Random, store: &mut Store, field: fn(&mut Slot) -> &mut u32) -> Option<()> {
    let slot = one_of(random, slots(store, 0))?;
    set(field(&mut store.slots[slot]), from(random, 1))
}

fn mark_above_1(random: &mut Random, store: &mut Store) -> Option<()> {
    let slot = one_of(random, slots(store, 1))?;
    set(&mut store.slots[slot].running, from(random, 2))
}

/// A key of the other half of all keys.
const HALF: u32 = 0x8000_0000;

/// The key of a search goes to the other half, where its node is not on the key's path then.
fn search_off_path(random: &mut Random, store: &mut Store) -> Option<()> {
    let plan = plan_of(store);
    let off = |slot: &Slot| plan.depth(slot.node as usize, slot.key ^ HALF).is_none();
    let searches = slots(store, 1).into_iter().filter(|&slot| off(&store.slots[slot])).collect();
    let slot = one_of(random, searches)?;
    store.slots[slot].key ^= HALF;
    Some(())
}

fn search_at_no_node(random: &mut Random, store: &mut Store) -> Option<()> {
    let slot = one_of(random, slots(store, 1))?;
    let node = from(random, plan_of(store).nodes() as u32);
    store.slots[slot].visits = random.pick(&[node, store.slots[slot].visits, 3, 4]);
    set(&mut store.slots[slot].node, node)
}

fn visits_off(random: &mut Random, store: &mut Store) -> Option<()> {
    let slot = one_of(random, slots(store, 1))?;
    let visits = &mut store.slots[slot].visits;
    let other = random.pick(&[visits.wrapping_sub(1), *visits + 1, visits.wrapping_add(0x8000_0000)]);
    set(visits, other)
}

/// Places whose next place in their node is used too.
fn first_of_two(store: &Store) -> Vec<usize> {
    let held = used(store);
    held.iter()
        .copied()
        .filter(|&place| place % NODE_PLACES < NODE_PLACES - 1 && held.contains(&(place + 1)))
        .collect()
}

/// The copy's key becomes its left neighbour's, in the lowest node that has the key.
fn keys_equal(random: &mut Random, store: &mut Store) -> Option<()> {
    let place = one_of(random, first_of_two(store))?;
    let key = store.keys[place];
    let elsewhere = |&other: &usize| other != place && store.keys[other] == key;
    if used(store).iter().any(elsewhere) {
        return None;
    }
    set(&mut store.keys[place + 1], key)
}

fn neighbours_exchanged(random: &mut Random, store: &mut Store) -> Option<()> {
    let place = one_of(random, first_of_two(store))?;
    for column in [&mut store.keys, &mut store.kinds, &mut store.values, &mut store.stamps] {
        column.swap(place, place + 1);
    }
    Some(())
}

fn kind_above_1(random: &mut Random, store: &mut Store) -> Option<()> {
    let place = one_of(random, used(store))?;
    set(&mut store.kinds[place], from(random, 2))
}

fn withdrawn_value(random: &mut Random, store: &mut Store) -> Option<()> {
    let withdrawn = used(store).into_iter().filter(|&place| store.kinds[place] == 0).collect();
    let place = one_of(random, withdrawn)?;
    set(&mut store.values[place], from(random, 1))
}

/// The outermost key of a node below the root goes to the other half, where the node is not on its path then; no other
/// copy has that key.
fn off_path(random: &mut Random, store: &mut Store) -> Option<()> {
    let plan = plan_of(store);
    let node = random.between(1, plan.nodes() - 1);
    let held = node * NODE_PLACES..node * NODE_PLACES + store.counts[node] as usize;
    let (place, upper) =
        if random.once_in(2) { (held.clone().last()?, true) } else { (held.clone().next()?, false) };
    let edge = if upper { HALF } else { HALF - 1 };
    let key = if random.once_in(2) { edge } else { store.keys[place] ^ HALF };
    let rises = held.filter(|&other| other != place).all(|other| (store.keys[other] < key) == upper);
    if !rises || plan.depth(node, key).is_some() || used(store).iter().any(|&place| store.keys[place] == key)
    {
        return None;
    }
    set(&mut store.keys[place], key)
}

/// Stamp 0 breaks the order down a path as well if a lower node has the key.
fn stamp_0(random: &mut Random, store: &mut Store) -> Option<()> {
    let place = one_of(random, used(store))?;
    if used(store).iter().any(|&other| other > place && store.keys[other] == store.keys[place]) {
        return None;
    }
    set(&mut store.stamps[place], 0)
}

/// A stamp at or above the clock breaks the order down a path as well if a node above has the key.
fn stamp_high(random: &mut Random, store: &mut Store) -> Option<()> {
    let place = one_of(random, used(store))?;
    if used(store).iter().any(|&other| other < place && store.keys[other] == store.keys[place]) {
        return None;
    }
    let more = random.number() % (u32::MAX - store.clock).max(1);
    let stamp = if random.once_in(2) { store.clock } else { store.clock + more };
    set(&mut store.stamps[place], stamp)
}

/// A copy whose key stands nowhere else gets another copy's stamp.
fn equal_stamps(random: &mut Random, store: &mut Store, in_node: bool) -> Option<()> {
    let held = used(store);
    let alone = |&place: &usize| held.iter().all(|&p| p == place || store.keys[p] != store.keys[place]);
    let place = one_of(random, held.iter().copied().filter(alone).collect())?;
    let same_node = |&p: &usize| p != place && (p / NODE_PLACES == place / NODE_PLACES) == in_node;
    let other = one_of(random, held.iter().copied().filter(same_node).collect())?;
    let stamp = store.stamps[other];
    set(&mut store.stamps[place], stamp)
}

/// Two copies of one key change their stamps.
fn stamps_exchanged(random: &mut Random, store: &mut Store) -> Option<()> {
    let held = used(store);
    let again = |&place: &usize| held.iter().any(|&p| p > place && store.keys[p] == store.keys[place]);
    let upper = one_of(random, held.iter().copied().filter(again).collect())?;
    let same_key = |&p: &usize| p > upper && store.keys[p] == store.keys[upper];
    let lower = one_of(random, held.iter().copied().filter(same_key).collect())?;
    store.stamps.swap(upper, lower);
    Some(())
}
