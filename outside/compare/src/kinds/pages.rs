//! Pages into buffers of every length.

use super::{begin, buffer, sample};
use crate::calls::{Call, Difference, Pair};
use crate::random::Random;
use crate::stores::pool;

pub fn case(random: &mut Random, pair: &mut Pair) -> Result<(), Difference> {
    let keys = if random.once_in(2) { pool(random) } else { of_few_samples(random) };
    begin(random, pair, &keys)?;
    for _ in 0..random.pick(&[0, 5, 60]) {
        let step = super::steps::step(random, &keys, 4);
        pair.same(step)?;
    }
    for _ in 0..10 {
        let sample = sample(random, &keys);
        let needed = pair.call(Call::Page(sample, Vec::new()))?.a as usize;
        pair.same(Call::Page(sample, buffer(random, needed)))?;
        pair.same(Call::Page(sample, random.bytes(needed)))?;
        pair.same(Call::Page(sample, random.bytes(model::LONGEST_PAGE)))?;
    }
    Ok(())
}

/// All analytes of one to four samples.
pub fn of_few_samples(random: &mut Random) -> Vec<u32> {
    let ends = [0, 1, 67_108_863, 67_108_864, 134_217_727];
    let samples: Vec<u32> = (0..random.between(1, 4)).map(|_| random.pick(&ends)).collect();
    samples.iter().flat_map(|&sample| (0..32).map(move |analyte| sample * 32 + analyte)).collect()
}
