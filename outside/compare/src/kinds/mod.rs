//! The kinds of cases.

pub mod books;
pub mod images;
pub mod mirror;
pub mod pages;
pub mod schedules;
pub mod serve;
pub mod shelves;
pub mod steps;
pub mod stores;

use model::PLANS;

use crate::calls::{Call, Difference, Pair};
use crate::random::Random;

/// The number of a plan of the table.
pub fn a_plan(random: &mut Random) -> u32 {
    random.small(PLANS.len() as u32) + 1
}

/// A number that no plan has: those beside the table's, or far away.
pub fn no_plan(random: &mut Random) -> u32 {
    random.pick(&[0, PLANS.len() as u32 + 1, 300, u32::MAX])
}

/// A good store on both sides: fresh, or built place by place.
pub fn begin(random: &mut Random, pair: &mut Pair, keys: &[u32]) -> Result<(), Difference> {
    if random.once_in(2) {
        pair.put(crate::stores::good(random, keys));
        return Ok(());
    }
    let plan = a_plan(random);
    pair.same(Call::Fresh(plan))
}

/// A buffer's bytes before a call: random, of the length needed, near it, or any.
pub fn buffer(random: &mut Random, needed: usize) -> Vec<u8> {
    let length = match random.below(6) {
        0 => 0,
        1 => needed.saturating_sub(1),
        2 => needed,
        3 => needed + 1,
        4 => random.below(needed + 1),
        _ => needed + random.below(100),
    };
    random.bytes(length)
}

/// A sample that has keys in the pool, a neighbour, or one at the ends.
pub fn sample(random: &mut Random, keys: &[u32]) -> u32 {
    match random.below(8) {
        0 => random.pick(&[0, 134_217_727, 134_217_728, u32::MAX, 134_217_729]),
        1 => random.number(),
        2 => (random.pick(keys) / 32).wrapping_add(1),
        _ => random.pick(keys) / 32,
    }
}

/// Damages bytes in one place: a bit, a byte, a cut, an end, a byte put in or taken out.
pub fn damage(random: &mut Random, bytes: &mut Vec<u8>) {
    if bytes.is_empty() {
        bytes.push(random.any() as u8);
        return;
    }
    let at = random.below(bytes.len());
    match random.below(7) {
        0 => bytes[at] ^= 1 << random.below(8),
        1 => bytes[at] = random.pick(&[0, 1, 2, 0x7f, 0x80, 0xff]),
        2 => bytes.truncate(at),
        3 => bytes.extend_from_slice(&random.pick(&[[0, 0], [1, 1], [0x80, 0x80]])),
        4 => bytes.insert(at, random.any() as u8),
        5 => longer_form(bytes, at),
        _ => drop(bytes.remove(at)),
    }
}

/// Writes the number that ends at or after a place with a byte more than it needs.
fn longer_form(bytes: &mut Vec<u8>, from: usize) {
    if let Some(end) = (from..bytes.len()).find(|&at| bytes[at] < 0x80) {
        bytes[end] |= 0x80;
        bytes.insert(end + 1, 0);
    }
}

/// A number in groups of seven bits.
pub fn put_number(bytes: &mut Vec<u8>, mut number: u32) {
    while number > 0x7f {
        bytes.push(number as u8 | 0x80);
        number >>= 7;
    }
    bytes.push(number as u8);
}
