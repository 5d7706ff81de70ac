//! Each call by type: what it gives, what it refuses, and what a refusal says and leaves.

use olipranj::*;

fn line(sample: u32, analyte: u32) -> Line {
    Line::new(sample, analyte).expect("a line")
}

fn fresh(plan: u32) -> Store {
    Store::fresh(plan).expect("a plan of the table")
}

/// What a refusal says.
fn says<T: std::fmt::Debug>(result: Result<T, Refusal>) -> String {
    result.expect_err("a refusal").to_string()
}

#[test]
fn a_line_is_of_a_sample_and_an_analyte() {
    assert_eq!(line(7, 1).key(), 225);
    assert_eq!(line(LAST_SAMPLE, 31).key(), u32::MAX);
    assert_eq!(Line::of_key(u32::MAX).to_string(), "134217727/31");
    assert_eq!(Line::new(7, 33), Err(NoLine::Analyte(33)));
    assert_eq!(Line::new(134_217_728, 99), Err(NoLine::Sample(134_217_728)));
    assert_eq!(NoLine::Analyte(33).to_string(), "analyte 33 is above 31");
    assert_eq!(NoLine::Sample(u32::MAX).to_string(), "sample 4294967295 is above 134217727");
}

#[test]
fn entries_give_stamps_and_looks_give_results() {
    let mut store = fresh(1);
    assert_eq!(store.look(line(1, 1)), Ok(Look::Never));
    assert_eq!(store.enter(line(1, 1), 0), Ok(Stamp(1)));
    let found = Look::Result { value: 0, stamp: Stamp(1) };
    assert_eq!((store.look(line(1, 1)), found.value()), (Ok(found), Some(0)));
    assert_eq!(store.carry(0, 0), Ok(Carried { carried: 1, discarded: 0, left: 0 }));
    assert_eq!(store.withdraw(line(1, 1)), Ok(Stamp(2)));
    assert_eq!(store.look(line(1, 1)), Ok(Look::Withdrawn(Stamp(2))));
    assert_eq!(store.carry(0, 0), Ok(Carried { carried: 1, discarded: 1, left: 0 }));
}

#[test]
fn a_search_visits_node_by_node() {
    let mut store = fresh(2);
    assert_eq!(store.start(line(1, 1)), Ok(0));
    assert_eq!(store.step(0), Ok(Visit::Going { node: 1, visits: 1 }));
    assert_eq!(store.step(0), Ok(Visit::Ended { look: Look::Never, visits: 2 }));
    assert_eq!(says(store.step(0)), "IDLE (10): no search runs in the slot");
    assert_eq!(says(store.cancel(8)), "SLOT (9): there is no such slot");
    (0..8).for_each(|slot| assert_eq!(store.start(line(1, 1)), Ok(slot)));
    assert_eq!(says(store.start(line(1, 1))), "SLOTS (8): a search runs in every slot");
    assert_eq!(store.cancel(3), Ok(()));
    assert_eq!(store.start(line(1, 1)), Ok(3));
}

#[test]
fn a_refusal_says_name_number_and_meaning_and_leaves_the_store() {
    let mut store = fresh(1);
    (0..8).for_each(|analyte| assert!(store.enter(line(1, analyte), 1).is_ok()));
    let before = store.clone();
    let full = store.enter(line(2, 0), 1).expect_err("the root is full");
    assert!(full.is(Number::Full) && full.name() == Some(Number::Full) && full.answer().number == 5);
    assert_eq!(full.to_string(), "FULL (5): the root is full and has no copy of the line");
    assert_eq!(says(store.carry(4, 0)), "NODE (6): the plan has no such node");
    assert_eq!(says(store.carry(3, 0)), "EDGE (7): the node has no such edge");
    assert_eq!(says(store.page(LAST_SAMPLE + 1)), "SAMPLE (12): the sample is too large");
    assert_eq!(says(store.save(&mut [])), "SMALL (11): the buffer is too short, 39 bytes are needed");
    assert_eq!(store, before);
    let boxed: Box<dyn std::error::Error> = Box::new(full);
    assert!(boxed.to_string().starts_with("FULL"));
}

#[test]
fn a_refused_fresh_or_load_leaves_the_old_store() {
    let mut store = fresh(3);
    store.enter(line(7, 1), 180).expect("room");
    let before = store.clone();
    let image = store.save_to_vec().expect("a good store");
    assert_eq!(says(Store::fresh(0)), "PLAN (3): there is no plan of this number");
    let cut = &image[..image.len() / 2];
    let mut reload = || -> Result<(), Refusal> {
        store = Store::load(cut)?;
        Ok(())
    };
    assert_eq!(says(reload()), "CUT (13): the bytes end before a number or inside it, at offset 6");
    assert_eq!(says(Store::load(&[1, 9])), "PLAN (3): there is no plan of this number, at offset 1");
    assert_eq!(store, before);
    assert_eq!(Store::load(&image), Ok(before));
}

#[test]
fn every_answer_number_has_its_name() {
    for (place, number) in Number::ALL.into_iter().enumerate() {
        assert_eq!(Number::of(place as u32), Some(number));
        assert!(number.to_string().contains(&format!("({place}): ")));
        assert!(!number.meaning().is_empty());
    }
    assert_eq!(Number::of(20), None);
    let strange = Answer { number: u32::MAX, a: 0, b: 0, c: 0, d: 0 };
    assert_eq!(strange.name(), None);
    assert_eq!(says(strange.done()), "answer 4294967295, which the header does not have");
}

#[test]
fn a_store_is_read_by_node_and_by_line() {
    let mut store = fresh(1);
    store.enter(line(1, 1), 5).expect("room");
    assert!(store.carry(0, 0).is_ok());
    store.enter(line(1, 1), 6).expect("room");
    store.withdraw(line(0, 2)).expect("room");
    let nodes: Vec<(u32, u32, Vec<Held>)> =
        store.nodes().map(|node| (node.number(), node.capacity(), node.copies().collect())).collect();
    let held = |line, entry, stamp| Held { line, entry, stamp: Stamp(stamp) };
    let root = vec![held(line(0, 2), Entry::Withdrawn, 3), held(line(1, 1), Entry::Result(6), 2)];
    let below = vec![held(line(1, 1), Entry::Result(5), 1)];
    assert_eq!(nodes, [(0, 8, root), (1, 16, below), (2, 32, vec![]), (3, 64, vec![])]);
    let lines = store.lines().expect("a good store");
    let newest = Look::Result { value: 6, stamp: Stamp(2) };
    assert_eq!(lines, [(line(0, 2), Look::Withdrawn(Stamp(3))), (line(1, 1), newest)]);
    assert_eq!((store.plan(), store.clock(), store.copies()), (1, 4, 3));
    let short = "Store { plan: 1, clock: 4, counts: [2, 1, 0, 0, 0, 0, 0, 0], searches: 0 }";
    assert_eq!(format!("{store:?}"), short);
    assert_eq!(format!("{:?}", store.raw()), short.replace("Store", "Raw"));
    let mut book = Book::new(store);
    assert_eq!(format!("{book:?}"), "Book { copies: 3, pending: 0 }");
    let saved = book.save().expect("a good store");
    assert_eq!(format!("{saved:?}"), format!("Saved {{ image: {}, pending: 0 }}", saved.image.len()));
    let refusal = book.anew(0).expect_err("there is no such plan");
    assert_eq!(format!("{refusal:?}"), refusal.to_string());
    assert_eq!(book.retry(), 0);
}

#[test]
fn numbers_that_break_a_rule_are_no_store() {
    assert_eq!(says(Store::from_raw(Raw::ZERO)), "BADSTORE (2): the store breaks a store rule");
    let mut raw = fresh(2).raw().clone();
    raw.counts[0] = u32::MAX;
    assert!(Store::from_raw(raw).is_err());
    assert!(Store::from_raw(fresh(2).raw().clone()).is_ok());
}

#[test]
fn the_capacities_are_the_plans() {
    for plan in 1..=3 {
        let model = model::Plan::numbered(plan).expect("a plan of the table");
        let here: Vec<usize> = capacities(plan).iter().map(|&capacity| capacity as usize).collect();
        assert_eq!(here, model.capacities);
    }
    assert_eq!([1, 2, 3].map(most_copies), [120, 72, 104]);
    assert_eq!([0, 4, u32::MAX].map(most_copies), [0; 3]);
    assert_eq!(model::PLANS.len(), 3);
}

#[test]
fn no_number_makes_a_call_panic() {
    let ends = [0, 1, 2, 3, 7, 8, 31, 32, LAST_SAMPLE, LAST_SAMPLE + 1, 1 << 31, u32::MAX - 1, u32::MAX];
    let numbers = || ends.into_iter().flat_map(|x| ends.map(|y| (x, y)));
    for (plan, clock) in numbers() {
        let mut raw = Store::fresh(plan).map_or(Raw::ZERO, |store| store.raw().clone());
        (raw.plan, raw.clock, raw.counts[0]) = (plan, clock, plan);
        for (x, y) in numbers() {
            let _ = (Line::new(x, y), raw.numbered(x, y, x), raw.look(x), raw.page(x, &mut []));
        }
        let Ok(mut store) = Store::from_raw(raw) else { continue };
        for (x, y) in numbers() {
            let line = Line::of_key(x);
            let _ = (store.enter(line, y), store.carry(x, y), store.carry(0, 0), store.start(line));
            let _ = (store.step(x), store.cancel(y), store.look(line), store.page(y));
            let _ = (store.still_true(x, &[]), store.lines(), store.copies(), store.save_to_vec());
        }
        let mut book = Book::new(store);
        for (x, y) in numbers() {
            let _ =
                (book.enter(Line::of_key(x), y), book.withdraw(Line::of_key(y)), book.retry(), book.anew(x));
            let _ = (book.look(Line::of_key(y)), book.page(x), book.still_true(y, &[1]));
        }
    }
}
