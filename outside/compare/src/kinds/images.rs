//! Images: saved, loaded, saved again; damaged, cut everywhere, made of wrong numbers.

use super::{a_plan, buffer, damage, put_number};
use crate::calls::{Call, Difference, Pair};
use crate::random::Random;
use crate::stores::{good, pool};

pub fn case(random: &mut Random, pair: &mut Pair) -> Result<(), Difference> {
    let keys = pool(random);
    pair.put(good(random, &keys));
    let needed = pair.call(Call::Save(Vec::new()))?.a as usize;
    for _ in 0..3 {
        pair.same(Call::Save(buffer(random, needed)))?;
    }
    let image = saved(random, pair, needed)?;
    pair.same(Call::Load(image.clone()))?;
    if saved(random, pair, needed)? != image {
        return Err(Difference::new("a loaded image saves as other bytes"));
    }
    for _ in 0..6 {
        pair.same(Call::Load(damaged(random, &image)))?;
    }
    for _ in 0..4 {
        pair.same(Call::Load(renumbered(random, &image)))?;
    }
    if image.len() < 80 {
        for end in 0..image.len() {
            pair.same(Call::Load(image[..end].to_vec()))?;
        }
    }
    pair.same(Call::Load(loose(random)))?;
    Ok(())
}

/// The image's bytes, from a buffer of exactly their length.
fn saved(random: &mut Random, pair: &mut Pair, needed: usize) -> Result<Vec<u8>, Difference> {
    let before = random.bytes(needed);
    pair.same(Call::Save(before))?;
    let mut image = vec![0; needed];
    model::save(&pair.model, &mut image);
    Ok(image)
}

fn damaged(random: &mut Random, image: &[u8]) -> Vec<u8> {
    let mut bytes = image.to_vec();
    for _ in 0..random.pick(&[1, 1, 1, 2]) {
        damage(random, &mut bytes);
    }
    bytes
}

/// The image with one of its numbers changed, or two exchanged; its form stays right.
fn renumbered(random: &mut Random, image: &[u8]) -> Vec<u8> {
    let mut numbers = numbers(image);
    let within = random.pick(&[8, 100, 1000]);
    let at = random.below(numbers.len().min(within));
    let other = random.below(numbers.len());
    match random.below(5) {
        0 => numbers[at] = numbers[at].wrapping_add(1),
        1 => numbers[at] = numbers[at].wrapping_sub(1),
        2 => numbers[at] = random.number(),
        3 => numbers[at] = numbers[other],
        _ => numbers.swap(at, other),
    }
    let mut bytes = Vec::new();
    numbers.iter().for_each(|&number| put_number(&mut bytes, number));
    if random.once_in(8) {
        damage(random, &mut bytes);
    }
    bytes
}

/// The numbers of a good image.
fn numbers(image: &[u8]) -> Vec<u32> {
    let mut numbers = Vec::new();
    let mut number = 0;
    let mut shift = 0;
    for &byte in image {
        number |= u32::from(byte & 0x7f) << shift;
        shift += 7;
        if byte < 0x80 {
            numbers.push(number);
            (number, shift) = (0, 0);
        }
    }
    numbers
}

/// Random small numbers that look like an image.
fn loose(random: &mut Random) -> Vec<u8> {
    let mut bytes = vec![1, a_plan(random) as u8];
    put_number(&mut bytes, random.number());
    for _ in 0..random.below(30) {
        let number = random.pick(&[0, 0, 1, 1, 2, 3, 8, 9]);
        put_number(&mut bytes, if random.once_in(4) { random.number() } else { number });
    }
    bytes
}
