//! Each public call on each store, the library beside the model.

use std::hint::black_box;

use crate::measure::both;
use crate::stores::{line, make, Fill, FILLS};

type OnLibrary = Box<dyn FnMut(&mut olipranj::Raw) -> olipranj::Answer>;
type OnModel = Box<dyn FnMut(&mut model::Store) -> model::Answer>;

/// A call to measure, on both sides.
struct Row {
    name: &'static str,
    library: OnLibrary,
    model: OnModel,
}

fn row(
    name: &'static str,
    library: impl FnMut(&mut olipranj::Raw) -> olipranj::Answer + 'static,
    model: impl FnMut(&mut model::Store) -> model::Answer + 'static,
) -> Row {
    Row { name, library: Box::new(library), model: Box::new(model) }
}

/// The same store on the library's side.
pub fn raw(store: &model::Store) -> olipranj::Raw {
    let slot = |slot: model::Slot| olipranj::Slot {
        running: slot.running,
        key: slot.key,
        node: slot.node,
        visits: slot.visits,
    };
    olipranj::Raw {
        plan: store.plan,
        clock: store.clock,
        counts: store.counts,
        keys: store.keys,
        kinds: store.kinds,
        values: store.values,
        stamps: store.stamps,
        slots: store.slots.map(slot),
    }
}

/// Steps, looks and a fresh store.
fn steps(plan: u32) -> Vec<Row> {
    let held = line(0);
    let deep = line(9);
    let new = line(100_000);
    vec![
        row("fresh", move |s| s.fresh_here(plan), move |s| model::fresh(s, plan)),
        row("enter, a held line", move |s| s.enter(held, 7), move |s| model::enter(s, held, 7)),
        row("enter, a new line", move |s| s.enter(new, 7), move |s| model::enter(s, new, 7)),
        row("withdraw", move |s| s.withdraw(held), move |s| model::withdraw(s, held)),
        row("carry 0 0", |s| s.carry(0, 0), |s| model::carry(s, 0, 0)),
        row("carry 1 0", |s| s.carry(1, 0), |s| model::carry(s, 1, 0)),
        row("start", move |s| s.start(new), move |s| model::start(s, new)),
        row("step", |s| s.step(0), |s| model::step(s, 0)),
        row("cancel", |s| s.cancel(0), |s| model::cancel(s, 0)),
        row("look, a held line", move |s| s.look(deep), move |s| model::look(s, deep)),
        row("look, a line never entered", move |s| s.look(new), move |s| model::look(s, new)),
    ]
}

fn served(length: usize) -> olipranj::Answer {
    olipranj::Answer { number: 0, a: length as u64, b: 0, c: 0, d: 0 }
}

/// Calls on bytes; the image and the kept page are the store's own.
fn bytes(store: &model::Store) -> Vec<Row> {
    let mut image = vec![0; olipranj::LONGEST_IMAGE];
    let length = model::save(store, &mut image).a as usize;
    image.truncate(length);
    let mut kept = vec![0; olipranj::LONGEST_PAGE];
    let length = model::page(store, 0, &mut kept).a as usize;
    kept.truncate(length);
    let (image_too, kept_too) = (image.clone(), kept.clone());
    let [mut a, mut b, mut c, mut d] = [[0; 2000]; 4];
    vec![
        row("save", move |s| s.save(&mut a), move |s| model::save(s, &mut b)),
        row("load", move |s| s.load_here(&image), move |s| model::load(s, &image_too)),
        row("page", move |s| s.page(0, &mut c), move |s| model::page(s, 0, &mut d)),
        row(
            "serve, a true page",
            move |s| served(s.true_bytes(0, &kept)),
            move |s| model::Answer::with(model::Number::Done, model::serve(s, 0, &kept_too) as u64),
        ),
        row("save, SMALL", |s| s.save(&mut []), |s| model::save(s, &mut [])),
    ]
}

/// Makes the call once on each side and tells its answer; both must be the same.
fn answer(row: &mut Row, store: &model::Store) -> olipranj::Number {
    let library = (row.library)(&mut raw(store));
    let model = (row.model)(&mut store.clone());
    let same = [model.a, model.b, model.c, model.d] == [library.a, library.b, library.c, library.d];
    assert!(same && model.number == library.number, "{}: {model:?} {library:?}", row.name);
    library.name().expect("an answer number")
}

/// Both times, their ratio, and the answer if it is not DONE.
fn cell(row: &mut Row, store: &model::Store) -> String {
    let answer = answer(row, store);
    let library = &mut row.library;
    let model = &mut row.model;
    let (ours, plain) = both(
        (&raw(store), &mut |s| _ = black_box(library(black_box(s)))),
        (store, &mut |s| _ = black_box(model(black_box(s)))),
    );
    let times = format!("{ours:.0} / {plain:.0} = {:.1}", ours / plain);
    if answer == olipranj::Number::Done {
        times
    } else {
        format!("{times} {}", format!("{answer:?}").to_uppercase())
    }
}

fn rows(plan: u32, store: &model::Store) -> Vec<Row> {
    let mut rows = steps(plan);
    rows.extend(bytes(store));
    rows
}

/// The check of all store rules alone.
fn print_check(plan: u32, stores: &[model::Store; 3]) {
    let good = |store: &olipranj::Raw| store.good().is_done();
    let cells = stores.each_ref().map(|store| {
        assert!(good(&raw(store)) && model::good(store));
        let (ours, plain) = both(
            (&raw(store), &mut |s| _ = black_box(good(black_box(s)))),
            (store, &mut |s| _ = black_box(model::good(black_box(s)))),
        );
        format!("{ours:.0} / {plain:.0} = {:.1}", ours / plain)
    });
    println!("| {plan} | the check alone | {} |", cells.join(" | "));
}

/// One line for each call on the plan's three stores.
fn print_plan(plan: u32) {
    let stores = FILLS.map(|fill| make(plan, fill));
    print_check(plan, &stores);
    let mut all = stores.each_ref().map(|store| rows(plan, store));
    for at in 0..all[0].len() {
        let name = all[0][at].name;
        let cells: Vec<String> = (0..3).map(|fill| cell(&mut all[fill][at], &stores[fill])).collect();
        println!("| {plan} | {name} | {} |", cells.join(" | "));
    }
}

/// A look in a full store whose clock is the highest stamp, and in one whose last slot is idle with a key.
fn print_broken() {
    let full = make(1, Fill::Full);
    let mut late = full.clone();
    late.clock -= 1;
    let mut idle = full.clone();
    idle.slots[7].key = 1;
    for (name, store) in [("a stamp at the clock", late), ("an idle slot's key", idle)] {
        let mut row = row("look", |s| s.look(0), |s| model::look(s, 0));
        println!("| 1 | look, a broken store: {name} | | | {} |", cell(&mut row, &store));
    }
}

/// Prints the table.
pub fn print() {
    println!("Nanoseconds, library / model = ratio:\n");
    println!("| plan | call | fresh store | half full | full |");
    println!("|---|---|---|---|---|");
    (1..=model::PLANS.len() as u32).for_each(print_plan);
    print_broken();
}
