//! A book of the safe crate: entries, what is pending, what is shown, saved, loaded and entered anew.

use std::collections::BTreeMap;

use olipranj::{Book, Entry, Line, Saved, Store};

use super::mirror::{same, Mirror};
use super::pages::of_few_samples;
use super::{a_plan, begin, damage, sample};
use crate::calls::{to_raw, Difference, Pair};
use crate::random::Random;
use crate::stores::pool;

/// A refusal where there must be none.
pub fn refused(refusal: impl std::fmt::Display) -> Difference {
    Difference::new(format!("refused: {refusal}"))
}

/// An entry; results more often than withdrawals.
pub fn entry(random: &mut Random) -> Entry {
    if random.once_in(5) {
        Entry::Withdrawn
    } else {
        Entry::Result(random.number())
    }
}

pub fn case(random: &mut Random, pair: &mut Pair) -> Result<(), Difference> {
    let keys = if random.once_in(3) { pool(random) } else { of_few_samples(random) };
    begin(random, pair, &keys)?;
    let mut mirror = Mirror::new(pair.model.clone());
    let mut book = Book::new(Store::from_raw(to_raw(&mirror.store)).map_err(refused)?);
    let mut kept: BTreeMap<u32, Vec<u8>> = BTreeMap::new();
    for _ in 0..random.pick(&[4, 20, 150]) {
        let key = if random.once_in(20) { random.number() } else { random.pick(&keys) };
        let entry = entry(random);
        let answer = mirror.take(key, entry);
        pair.tally[answer.number as usize] += 1;
        mirror.took(answer, book.take(Line::of_key(key), entry))?;
        mirror.holds(&book)?;
        mirror.look(key, &book)?;
        for sample in [key / 32, sample(random, &keys)] {
            let page = mirror.shown(sample, kept.get(&sample).map_or(&[], Vec::as_slice), &book)?;
            kept.insert(sample, page);
        }
    }
    same("entries still pending", &mirror.pending.len(), &book.retry())?;
    overnight(random, &mirror, &book)?;
    elsewhere(random, &mirror, &book)?;
    anew(a_plan(random), &mirror, &book)
}

/// What is saved is loaded as it was, without searches; an image that is refused is refused by both.
fn overnight(random: &mut Random, mirror: &Mirror, book: &Book) -> Result<(), Difference> {
    let saved = book.save().map_err(refused)?;
    same("what is saved, by its bytes", &Ok(saved.clone()), &Saved::read(&saved.to_bytes()))?;
    let mut morning = mirror.clone();
    same("the image loads", &true, &model::load(&mut morning.store, &saved.image).is_done())?;
    morning.holds(&Book::load(&saved).map_err(refused)?)?;
    let mut image = saved.image.clone();
    damage(random, &mut image);
    let answer = model::load(&mut morning.store, &image);
    match Book::load(&Saved { image, pending: saved.pending }) {
        Ok(book) => morning.holds(&book),
        Err(refusal) => same("a damaged image", &answer.number, &refusal.answer().number),
    }
}

/// What is pending goes on beside a fresh store, where there is room for some of it.
fn elsewhere(random: &mut Random, mirror: &Mirror, book: &Book) -> Result<(), Difference> {
    let plan = a_plan(random);
    let pending = mirror.pending.clone();
    let mut other =
        Mirror { store: model::Store::empty(plan), wanted: pending.clone(), pending: pending.clone() };
    let image = Store::fresh(plan).and_then(|store| store.save_to_vec()).map_err(refused)?;
    let mut book = Book::load(&Saved { image, pending: book.pending().to_vec() }).map_err(refused)?;
    for &key in pending.keys().take(random.below(9)) {
        let entry = entry(random);
        let answer = other.take(key, entry);
        other.took(answer, book.take(Line::of_key(key), entry))?;
        other.holds(&book)?;
        other.look(key, &book)?;
    }
    for pending in book.pending() {
        other.take(pending.line.key(), pending.entry);
    }
    same("still pending elsewhere", &other.pending.len(), &book.retry())?;
    other.holds(&book)
}

/// Entered anew, each line has its last entry, held or pending; pending only if there is no room.
fn anew(plan: u32, mirror: &Mirror, book: &Book) -> Result<(), Difference> {
    let book = book.anew(plan).map_err(refused)?;
    let mut after = Mirror::new(model::Store::empty(plan));
    for (line, look) in book.store().lines().map_err(refused)? {
        after.wanted.insert(line.key(), look.value().map_or(Entry::Withdrawn, Entry::Result));
    }
    after.wanted.extend(book.pending().iter().map(|pending| (pending.line.key(), pending.entry)));
    same("the last entries anew", &mirror.wanted, &after.wanted)?;
    same("pending though the lines fit", &false, &(after.fits() && !book.pending().is_empty()))
}
