//! The check of a full store of plan 1, by the order of its stamps, the library beside the model.
//!
//! It is measured by a cancel of an idle slot, which does the check and little else.

use std::hint::black_box;

use model::NODE_PLACES;

use crate::calls::raw;
use crate::measure::both;
use crate::stores::{make, Fill};

/// The library's marks: stamps that are equal modulo this number share one.
const MARKS: u32 = 4096;
/// The slot that is idle in a full store.
const IDLE: u32 = 7;

/// The places of all copies, from the last node to the root, in a node by rising key; a list for each node.
fn places(store: &model::Store) -> Vec<Vec<usize>> {
    let node = |n: usize| (NODE_PLACES * n..NODE_PLACES * n + store.counts[n] as usize).collect();
    (0..store.counts.len()).rev().map(node).collect()
}

/// A full store with these stamps, one after another. Those of a line's own copies are then put in order, the older
/// deeper, as the rules ask.
fn stamped(stamps: &[u32]) -> model::Store {
    let mut store = make(1, Fill::Full);
    let places = places(&store).concat();
    places.iter().zip(stamps).for_each(|(&place, &stamp)| store.stamps[place] = stamp);
    for (i, &deep) in places.iter().enumerate() {
        for &above in &places[i + 1..] {
            if store.keys[deep] == store.keys[above] && store.stamps[deep] > store.stamps[above] {
                store.stamps.swap(deep, above);
            }
        }
    }
    store.clock = stamps.iter().max().expect("a full store has copies") + 1;
    assert!(model::good(&store));
    store
}

/// Numbers in which no order is to be seen, the same in each run (xorshift).
fn random() -> impl FnMut() -> u32 {
    let mut state = 2026_u64;
    move || {
        state ^= state << 13;
        state ^= state >> 7;
        state ^= state << 17;
        (state >> 32) as u32
    }
}

/// The same stamps, in random order.
fn shuffled(mut stamps: Vec<u32>) -> Vec<u32> {
    let mut next = random();
    for i in (1..stamps.len()).rev() {
        stamps.swap(i, next() as usize % (i + 1));
    }
    stamps
}

/// The stores measured, with a word for the stamps of each.
fn orders() -> [(&'static str, model::Store); 6] {
    let full = make(1, Fill::Full);
    let nodes: Vec<usize> = places(&full).iter().map(Vec::len).collect();
    let copies = nodes.iter().sum::<usize>() as u32;
    let rising: Vec<u32> = (1..=copies).collect();
    let mut falling = rising.clone();
    let mut rest = &mut falling[..];
    for &count in &nodes {
        let (node, later) = rest.split_at_mut(count);
        node.reverse();
        rest = later;
    }
    let numbers: Vec<u32> = std::iter::repeat_with(random()).take(copies as usize).collect();
    let multiples: Vec<u32> = (1..=copies).map(|i| MARKS * i).collect();
    [
        ("as entries and carries leave them", full),
        ("in a row, rising with the key", stamped(&rising)),
        ("in a row, falling in each node", stamped(&falling)),
        ("in a row, in random order", stamped(&shuffled(rising))),
        ("random numbers", stamped(&numbers)),
        ("all of one remainder", stamped(&multiples)),
    ]
}

/// Prints the table.
pub fn print() {
    println!("\n| stamps of a full store of plan 1 | the check: library / model = ratio |");
    println!("|---|---|");
    for (name, store) in orders() {
        let library = raw(&store);
        assert_eq!(library.clone().cancel(IDLE).number, model::cancel(&mut store.clone(), IDLE).number);
        let (ours, plain) = both(
            (&library, &mut |s| _ = black_box(black_box(s).cancel(IDLE))),
            (&store, &mut |s| _ = black_box(model::cancel(black_box(s), IDLE))),
        );
        println!("| {name} | {ours:.0} / {plain:.0} = {:.1} |", ours / plain);
    }
}
