//! Random steps one after another, with other calls in between.

use super::{a_plan, begin, buffer, no_plan, sample};
use crate::calls::{Call, Difference, Pair};
use crate::random::Random;
use crate::stores::pool;

pub fn case(random: &mut Random, pair: &mut Pair) -> Result<(), Difference> {
    let keys = pool(random);
    begin(random, pair, &keys)?;
    let length = random.pick(&[3, 30, 300]);
    let carries = random.pick(&[1, 3, 8]);
    for _ in 0..length {
        let call = call(random, &keys, carries);
        pair.same(call)?;
    }
    Ok(())
}

fn call(random: &mut Random, keys: &[u32], carries: usize) -> Call {
    match random.below(200) {
        0 => Call::Fresh(if random.once_in(2) { no_plan(random) } else { a_plan(random) }),
        1 => Call::Page(sample(random, keys), buffer(random, 60)),
        2 => Call::Save(buffer(random, 300)),
        3 => Call::Good,
        4..10 => Call::Look(key(random, keys)),
        _ => step(random, keys, carries),
    }
}

fn key(random: &mut Random, keys: &[u32]) -> u32 {
    if random.once_in(20) {
        random.number()
    } else {
        random.pick(keys)
    }
}

/// A step; entries come often, so that nodes fill.
pub fn step(random: &mut Random, keys: &[u32], carries: usize) -> Call {
    let number = match random.below(22 + carries) {
        0..8 => 1,
        8..10 => 2,
        10..12 => 4,
        12..19 => 5,
        19..21 => 6,
        21 if random.once_in(4) => random.pick(&[0, 7, 8, u32::MAX]),
        _ => 3,
    };
    let slots = model::SLOTS as u32;
    let slot = if random.once_in(20) {
        random.pick(&[slots, slots + 1, 255, u32::MAX])
    } else {
        random.small(slots)
    };
    let unused = if random.once_in(4) { random.number() } else { 0 };
    match number {
        1 => Call::Step(1, key(random, keys), random.number()),
        2 | 4 => Call::Step(number, key(random, keys), unused),
        3 => Call::Step(3, node(random), edge(random)),
        5 | 6 => Call::Step(number, slot, unused),
        _ => Call::Step(number, random.number(), unused),
    }
}

fn node(random: &mut Random) -> u32 {
    match random.below(16) {
        0 => random.pick(&[4, 5, 7, 8, u32::MAX]),
        1..7 => 0,
        _ => random.small(4),
    }
}

fn edge(random: &mut Random) -> u32 {
    match random.below(16) {
        0 => random.pick(&[2, 3, 4, u32::MAX]),
        1..6 => 1,
        _ => 0,
    }
}
