//! Time per call: the best of several batches, both sides in turn.

use std::time::{Duration, Instant};

/// Stores that a round calls in turn; they fit in a processor's first cache together.
const STORES: usize = 4;
/// Rounds of a batch: few, so that the best batch is one that nothing else on the machine broke into.
const ROUNDS: usize = 50;
const BATCHES: usize = 100;

/// Nanoseconds per call of one batch. Before each round the stores are laid down anew, which is not counted.
fn batch<S: Clone>(base: &S, call: &mut dyn FnMut(&mut S)) -> f64 {
    let mut stores = vec![base.clone(); STORES];
    let mut total = Duration::ZERO;
    for _ in 0..ROUNDS {
        stores.iter_mut().for_each(|store| store.clone_from(base));
        let begun = Instant::now();
        stores.iter_mut().for_each(&mut *call);
        total += begun.elapsed();
    }
    total.as_nanos() as f64 / (ROUNDS * STORES) as f64
}

/// The best batch of each side.
pub fn both(
    library: (&olipranj::Raw, &mut dyn FnMut(&mut olipranj::Raw)),
    model: (&model::Store, &mut dyn FnMut(&mut model::Store)),
) -> (f64, f64) {
    let mut best = (f64::MAX, f64::MAX);
    for _ in 0..BATCHES {
        best.0 = best.0.min(batch(library.0, library.1));
        best.1 = best.1.min(batch(model.0, model.1));
    }
    best
}
