//! Kept pages: true, stale, damaged, longer, cut, of other samples.

use super::pages::of_few_samples;
use super::{begin, damage, sample};
use crate::calls::{Call, Difference, Pair};
use crate::random::Random;
use crate::stores::pool;

pub fn case(random: &mut Random, pair: &mut Pair) -> Result<(), Difference> {
    let keys = if random.once_in(3) { pool(random) } else { of_few_samples(random) };
    begin(random, pair, &keys)?;
    let mut kept: Vec<(u32, Vec<u8>)> = Vec::new();
    for _ in 0..random.pick(&[4, 20, 60]) {
        let step = super::steps::step(random, &keys, 3);
        pair.same(step)?;
        let sample = sample(random, &keys);
        if random.once_in(2) {
            kept.push((sample, page(pair, sample)?));
        }
        for _ in 0..2 {
            serve(random, pair, &kept)?;
        }
    }
    pair.same(Call::Serve(random.number(), Vec::new()))
}

/// The page as it is now; nothing for a sample too large.
fn page(pair: &mut Pair, sample: u32) -> Result<Vec<u8>, Difference> {
    let answer = pair.call(Call::Page(sample, vec![0; model::LONGEST_PAGE]))?;
    let mut bytes = vec![0; model::LONGEST_PAGE];
    model::page(&pair.model, sample, &mut bytes);
    bytes.truncate(answer.a as usize);
    Ok(bytes)
}

/// Serves one of the kept pages, as it is or altered.
fn serve(random: &mut Random, pair: &mut Pair, kept: &[(u32, Vec<u8>)]) -> Result<(), Difference> {
    if kept.is_empty() {
        return Ok(());
    }
    let (mut sample, mut bytes) = kept[kept.len() - 1 - random.below(kept.len().min(4))].clone();
    match random.below(6) {
        0 => damage(random, &mut bytes),
        1 => bytes.extend(random.bytes(20)),
        2 => bytes.truncate(bytes.len().saturating_sub(1)),
        3 => sample = random.pick(&[sample.wrapping_add(1), 0, u32::MAX, 134_217_728]),
        _ => (),
    }
    pair.same(Call::Serve(sample, bytes))
}
