//! P1 to P10 of document 01, and what its words on numbers and images fix.

use model::*;

const SCHEDULE: [u8; 23] = [
    0x01, 0x01, 0x21, 0xB4, 0x01, 0x03, 0x00, 0x00, 0x04, 0x21, 0x05, 0x00, 0x01, 0x21, 0xD2, 0x01, 0x03,
    0x00, 0x00, 0x05, 0x00, 0x05, 0x00,
];
const LINES: &str = "0 0 8 0 0 0\n1 0 1 0 0 0\n3 0 1 0 0 0\n4 0 0 0 0 0\n5 1 1 1 0 0\n1 0 2 0 0 0\n3 0 1 1 0 0\n5 0 2 210 2 2\n5 10 0 0 0 0\n";

fn fresh_of(plan: u32) -> Store {
    let mut store = Store::empty(1);
    assert!(fresh(&mut store, plan).is_done());
    store
}

/// The store after the schedule of P1.
fn after() -> Store {
    let mut list = [Step::default(); STEPS];
    let decoded = decode(&SCHEDULE, &mut list);
    let mut store = fresh_of(decoded.b as u32);
    for place in 0..decoded.a as usize {
        run(&mut store, &list, place);
    }
    store
}

#[test]
fn p1_lines() {
    assert_eq!(program(&SCHEDULE), LINES);
}

#[test]
fn p2_saved() {
    let mut buffer = [0xEE; 20];
    assert_eq!(save(&after(), &mut buffer), Answer::with(Number::Done, 12));
    assert_eq!(buffer[..12], [0x01, 0x01, 0x03, 0x00, 0x01, 0x21, 0x01, 0xD2, 0x01, 0x02, 0x00, 0x00]);
    assert_eq!(buffer[12..], [0xEE; 8]);
}

#[test]
fn p3_page() {
    let mut buffer = [0; 6];
    assert_eq!(page(&after(), 1, &mut buffer), Answer::with(Number::Done, 6));
    assert_eq!(buffer, [0x01, 0x01, 0x01, 0xD2, 0x01, 0x02]);
}

#[test]
fn p4_empty_image() {
    let mut store = after();
    assert_eq!(load(&mut store, &[]), Answer::with(Number::Cut, 0));
    assert_eq!(store, fresh_of(1));
}

#[test]
fn p5_full() {
    let mut store = fresh_of(1);
    for key in 0..8 {
        assert!(enter(&mut store, key, 0).is_done());
    }
    let before = store.clone();
    assert_eq!(enter(&mut store, 8, 0), Answer::bare(Number::Full));
    assert_eq!(store, before);
    assert_eq!(enter(&mut store, 3, 0), Answer::with(Number::Done, 9));
}

#[test]
fn p6_clock() {
    let mut store = fresh_of(1);
    store.clock = LAST_CLOCK - 1;
    assert_eq!(enter(&mut store, 1, 1), Answer::with(Number::Done, 4_294_967_294));
    assert_eq!(enter(&mut store, 1, 1), Answer::bare(Number::Clock));
}

#[test]
fn p7_withdrawn() {
    let mut store = fresh_of(1);
    enter(&mut store, 33, 180);
    carry(&mut store, 0, 0);
    withdraw(&mut store, 33);
    assert_eq!(look(&store, 33), Answer::full(Number::Done, 1, 0, 2, 1));
}

#[test]
fn p8_never() {
    assert_eq!(look(&fresh_of(2), 33), Answer::full(Number::Done, 0, 0, 0, 2));
}

#[test]
fn p9_slots() {
    let mut store = fresh_of(1);
    assert_eq!(step(&mut store, 7), Answer::bare(Number::Idle));
    assert_eq!(step(&mut store, 8), Answer::bare(Number::Slot));
}

#[test]
fn p10_sample() {
    assert_eq!(page(&fresh_of(1), 134_217_728, &mut []), Answer::bare(Number::Sample));
    assert_eq!(page(&fresh_of(1), 134_217_727, &mut []), Answer::with(Number::Small, 5));
}

#[test]
fn numbers() {
    let fault = |bytes: &[u8]| load(&mut Store::empty(1), bytes);
    assert_eq!(fault(&[0x80, 0x80, 0x80, 0x80]), Answer::with(Number::Cut, 0));
    assert_eq!(fault(&[0x80, 0x80, 0x80, 0x80, 0x00]), Answer::with(Number::Number, 0));
    assert_eq!(fault(&[0xFF, 0xFF, 0xFF, 0xFF, 0x10]), Answer::with(Number::Number, 0));
    assert_eq!(fault(&[0xFF, 0xFF, 0xFF, 0xFF, 0x8F]), Answer::with(Number::Number, 0));
    assert_eq!(fault(&[0xB4, 0x81, 0x00]), Answer::with(Number::Number, 0));
    assert_eq!(fault(&[0x02]), Answer::with(Number::Format, 0));
    assert_eq!(fault(&[0x01, 0x04]), Answer::with(Number::Plan, 1));
    assert_eq!(fault(&[0x01, 0x01, 0x00]), Answer::with(Number::Rule, 2));
    assert_eq!(fault(&[0x01, 0x01, 0x01, 0x09]), Answer::with(Number::Rule, 3));
}

#[test]
fn longest_page() {
    let mut store = Store::empty(1);
    store.clock = LAST_CLOCK;
    store.counts[3] = 32;
    for at in 0..32 {
        let place = 3 * NODE_PLACES + at as usize;
        store.keys[place] = 134_217_727 * 32 + at;
        store.kinds[place] = 1;
        store.values[place] = u32::MAX;
        store.stamps[place] = LAST_CLOCK - 1 - at;
    }
    let mut buffer = [0; LONGEST_PAGE + 1];
    assert_eq!(page(&store, 134_217_727, &mut buffer), Answer::with(Number::Done, 357));
    assert_eq!(serve(&store, 134_217_727, &buffer), 357);
}

#[test]
fn carries_past_a_copy_without_room() {
    let mut store = fresh_of(2);
    for round in 0..4 {
        for key in 0..8 {
            enter(&mut store, 100 + round * 8 + key, 1);
        }
        assert_eq!(carry(&mut store, 0, 0), Answer::with(Number::Done, 8));
    }
    enter(&mut store, 1, 1);
    enter(&mut store, 131, 2);
    assert_eq!(carry(&mut store, 0, 0), Answer::full(Number::Done, 1, 1, 1, 0));
    assert_eq!(carry(&mut store, 0, 0), Answer::full(Number::Done, 0, 0, 1, 0));
    assert_eq!(look(&store, 131), Answer::full(Number::Done, 2, 2, 34, 2));
    assert!(good(&store));
}

#[test]
fn decoding_writes_all_or_nothing() {
    let mark = Step { number: 9, x: 9, y: 9 };
    let mut list = [mark; STEPS + 1];
    assert_eq!(decode(&[0x01, 0x02, 0x05, 0x07, 0x80], &mut list), Answer::with(Number::Op, 3));
    assert_eq!(list, [mark; STEPS + 1]);
    assert_eq!(decode(&[0x02, 0x02, 0x05], &mut list), Answer::full(Number::Done, 1, 2, 0, 0));
    assert_eq!(list[..2], [Step { number: 2, x: 5, y: 0 }, mark]);
    assert_eq!(decode(&[], &mut list[..STEPS - 1]), Answer::with(Number::Small, 256));
    assert_eq!(decode(&[], &mut list), Answer::with(Number::Cut, 0));
    assert_eq!(decode(&[0x04], &mut list), Answer::with(Number::Plan, 0));
}

#[test]
fn many_is_tested_first() {
    let mut bytes = vec![0x01];
    bytes.extend([0x05, 0x00].repeat(STEPS));
    let mut list = [Step::default(); STEPS];
    assert_eq!(decode(&bytes, &mut list), Answer::full(Number::Done, 256, 1, 0, 0));
    bytes.push(0x80);
    assert_eq!(decode(&bytes, &mut list), Answer::with(Number::Many, 513));
}

#[test]
fn the_runner_tells_the_place() {
    let mut store = fresh_of(1);
    assert_eq!(run(&mut store, &[], 3), Answer::with(Number::Op, 3));
    assert_eq!(run(&mut store, &[Step::default(); 2], 1), Answer::with(Number::Op, 1));
    store.clock = 0;
    assert_eq!(run(&mut store, &[], 3), Answer::bare(Number::BadStore));
}
