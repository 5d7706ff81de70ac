//! A shelf of the safe crate: each of its books beside a store of the model.

use std::collections::BTreeMap;
use std::num::NonZeroU32;

use olipranj::{Book, Current, Entry, Line, NoBook, Saved, Shelf, Store, Taken};

use super::books::{entry, refused};
use super::mirror::{same, Mirror};
use super::{a_plan, damage};
use crate::calls::{to_raw, Difference, Pair};
use crate::random::Random;

/// A shelf, the model's stores by number, and the last pages made.
struct Both {
    shelf: Shelf,
    mirrors: BTreeMap<u32, Mirror>,
    plan: u32,
    samples: NonZeroU32,
    kept: BTreeMap<u32, Vec<u8>>,
}

pub fn case(random: &mut Random, pair: &mut Pair) -> Result<(), Difference> {
    let plan = a_plan(random);
    let samples = NonZeroU32::new(random.pick(&[1, 2, 4, 7, 1000])).expect("not 0");
    let shelf = Shelf::new(plan, samples).map_err(refused)?;
    let mut both = Both { shelf, mirrors: BTreeMap::new(), plan, samples, kept: BTreeMap::new() };
    let first = random.pick(&[0, 67_108_860, 134_217_700]);
    let (spread, analytes) = (random.pick(&[1, 6, 28]), random.pick(&[2, 32]));
    late(random, &mut both, first)?;
    for _ in 0..random.pick(&[10, 60, 300]) {
        let sample = first + random.small(spread);
        let key = sample * 32 + random.small(analytes);
        let answer = both.take(random, key)?;
        pair.tally[answer as usize] += 1;
        both.shown(first + random.small(28))?;
    }
    overnight(random, &both)
}

/// Puts a book whose clock is at its end, or near it, at the first sample's number.
fn late(random: &mut Random, both: &mut Both, sample: u32) -> Result<(), Difference> {
    if random.once_in(3) {
        let mut store = model::Store::empty(both.plan);
        store.clock = model::LAST_CLOCK - random.small(6);
        let number = sample / both.samples;
        let book = Book::new(Store::from_raw(to_raw(&store)).map_err(refused)?);
        both.shelf.put(number, book).map_err(refused)?;
        both.mirrors.insert(number, Mirror::new(store));
    }
    Ok(())
}

impl Both {
    fn mirror(&self, sample: u32) -> Mirror {
        let fresh = || Mirror::new(model::Store::empty(self.plan));
        self.mirrors.get(&(sample / self.samples)).cloned().unwrap_or_else(fresh)
    }

    /// Takes an entry on both sides and gives the answer's number.
    fn take(&mut self, random: &mut Random, key: u32) -> Result<u32, Difference> {
        let entry = entry(random);
        let mut mirror = self.mirror(key / 32);
        let answer = mirror.take(key, entry);
        mirror.took(answer, self.shelf.take(Line::of_key(key), entry))?;
        mirror.holds(self.shelf.book(key / 32).map_err(refused)?)?;
        mirror.look(key, &self.shelf)?;
        self.mirrors.insert(key / 32 / self.samples, mirror);
        self.shown(key / 32)?;
        Ok(answer.number)
    }

    /// Serves the last page made of a sample, and makes it anew.
    fn shown(&mut self, sample: u32) -> Result<(), Difference> {
        let kept = self.kept.remove(&sample).unwrap_or_default();
        let page = self.mirror(sample).shown(sample, &kept, &self.shelf)?;
        self.kept.insert(sample, page);
        Ok(())
    }
}

/// Each book is saved and loaded by itself; a refused or misplaced one leaves the shelf as it was.
fn overnight(random: &mut Random, both: &Both) -> Result<(), Difference> {
    let evening = both.shelf.save().map_err(refused)?;
    let numbers: Vec<u32> = evening.iter().map(|(number, _)| *number).collect();
    same("the books", &both.mirrors.keys().copied().collect(), &numbers)?;
    let mut morning = both.shelf.clone();
    for (number, saved) in &evening {
        morning.load(*number, saved).map_err(refused)?;
        let elsewhere = morning.clone().load(number + 1, saved);
        let holds = saved.pending.len() + Book::load(saved).map_err(refused)?.store().copies() > 0;
        same("a misplaced book", &holds, &matches!(elsewhere, Err(NoBook::Misplaced(_))))?;
        let cut = Saved { image: saved.image[..random.below(saved.image.len())].to_vec(), ..saved.clone() };
        same("a cut image", &true, &matches!(morning.load(*number, &cut), Err(NoBook::Refused(_))))?;
        after_a_refused_load(both, *number, saved, &cut)?;
        let mut damaged = saved.clone();
        damage(random, &mut damaged.image);
        let before = morning.clone();
        if morning.load(*number, &damaged).is_err() {
            same("the shelf after a refusal", &before, &morning)?;
        }
        morning.load(*number, saved).map_err(refused)?;
    }
    both.mirrors.iter().try_for_each(|(number, mirror)| {
        let book = morning.books().find(|(other, _)| other == number);
        mirror.holds(book.ok_or(Difference::new("a book is missing"))?.1)
    })
}

/// Where nothing but a refused load was, nothing is shown or saved, and an entry is pending until a good book is there.
fn after_a_refused_load(both: &Both, number: u32, saved: &Saved, cut: &Saved) -> Result<(), Difference> {
    let mut shelf = Shelf::new(both.plan, both.samples).map_err(refused)?;
    let sample = number * both.samples.get();
    let kept = shelf.page(sample).map_err(refused)?.into_bytes();
    same("a cut image alone", &true, &shelf.load(number, cut).is_err())?;
    same(
        "a page of a refused book",
        &(true, None),
        &(shelf.page(sample).is_err(), shelf.still_true(sample, &kept)),
    )?;
    let (key, entry) = (sample * 32, Entry::Result(number));
    let taken = shelf.take(Line::of_key(key), entry);
    same("an entry of a refused book", &true, &matches!(taken, Taken::Pending(_)))?;
    same("a look there", &Ok(Current::Pending(entry)), &shelf.look(Line::of_key(key)))?;
    same("what is saved of a refused book", &0, &shelf.save().map_err(refused)?.len())?;
    shelf.load(number, saved).map_err(refused)?;
    let mut mirror = both.mirror(sample);
    mirror.take(key, entry);
    mirror.holds(shelf.book(sample).map_err(refused)?)
}
