//! Stores that break one rule, each rule by name, and stores with a random word changed.

use super::sample;
use crate::breaks::WAYS;
use crate::calls::{Call, Difference, Pair};
use crate::naive::broken;
use crate::random::Random;
use crate::stores::{good, pool};

const BADSTORE: u32 = 2;

/// Case after case, each way to break a rule has its turn; after each, a store with a random word changed.
pub fn case(random: &mut Random, pair: &mut Pair, turn: u64) -> Result<(), Difference> {
    let way = WAYS[turn as usize % WAYS.len()];
    let (keys, store) = loop {
        let keys = pool(random);
        let mut store = good(random, &keys);
        check_names(&store, &[], "a good store")?;
        if way.2(random, &mut store).is_some() {
            break (keys, store);
        }
    };
    check_names(&store, &[way.0], way.1)?;
    all_calls(random, pair, &store, &keys, true).map_err(|difference| named(difference, way.1))?;
    let mut store = good(random, &keys);
    change_a_word(random, &mut store);
    let bad = !broken(&store).is_empty();
    all_calls(random, pair, &store, &keys, bad).map_err(|difference| named(difference, "a word changed"))
}

fn named(difference: Difference, way: &str) -> Difference {
    Difference::new(format!("{way}: {}", difference.what))
}

/// The naive rules must name exactly what was broken.
fn check_names(store: &model::Store, names: &[&str], way: &str) -> Result<(), Difference> {
    let found = broken(store);
    if found == names {
        return Ok(());
    }
    let text = crate::stores::describe(store);
    Err(Difference::new(format!("{way} breaks {found:?}, not {names:?}: {text}")))
}

/// Every call, each on the store as it was laid down; on a bad one each must answer BADSTORE, and serve nothing.
fn all_calls(
    random: &mut Random,
    pair: &mut Pair,
    store: &model::Store,
    keys: &[u32],
    bad: bool,
) -> Result<(), Difference> {
    for call in calls(random, keys) {
        pair.put(store.clone());
        let serves = matches!(call, Call::Serve(..));
        let answer = pair.call(call)?;
        let refused = if serves { answer.a == 0 } else { answer.number == BADSTORE };
        if refused != bad && !serves {
            return Err(Difference::new(format!("both answer {answer:?}; broken: {:?}", broken(store))));
        }
        if bad && (!refused || pair.model != *store) {
            return Err(Difference::new("a bad store is altered or served"));
        }
    }
    Ok(())
}

/// One of each call.
fn calls(random: &mut Random, keys: &[u32]) -> Vec<Call> {
    let key = random.pick(keys);
    let sample = sample(random, keys);
    let page = vec![0; random.below(40)];
    vec![
        Call::Step(1, key, random.number()),
        Call::Step(2, key, 0),
        Call::Step(3, random.small(5), random.small(3)),
        Call::Step(4, key, 0),
        Call::Step(5, random.small(10), 0),
        Call::Step(6, random.small(10), 0),
        Call::Step(random.pick(&[0, 7, u32::MAX]), key, 0),
        Call::Good,
        Call::Look(key),
        Call::Save(random.bytes(2000)),
        Call::Save(Vec::new()),
        Call::Page(sample, random.bytes(model::LONGEST_PAGE)),
        Call::Page(u32::MAX, Vec::new()),
        Call::Serve(sample, page),
    ]
}

/// Changes one word a little, to an end, or to any number.
fn change_a_word(random: &mut Random, store: &mut model::Store) {
    let number = random.number();
    let little = random.pick(&[1, u32::MAX, 0x8000_0000]);
    let any = random.once_in(3);
    let used = crate::stores::used(store);
    let place = if used.is_empty() || random.once_in(3) {
        random.below(store.keys.len())
    } else {
        random.pick(&used)
    };
    let slot = random.below(store.slots.len());
    let node = random.below(store.counts.len());
    let word = match random.below(11) {
        0 => &mut store.plan,
        1 => &mut store.clock,
        2 => &mut store.counts[node],
        3 | 4 => &mut store.keys[place],
        5 => &mut store.kinds[place],
        6 => &mut store.values[place],
        7 | 8 => &mut store.stamps[place],
        9 => &mut store.slots[slot].node,
        _ => &mut store.slots[slot].visits,
    };
    *word = if any { number } else { word.wrapping_add(little) };
}
