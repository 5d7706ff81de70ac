//! The evening's bytes: save and load.

use crate::number::{length, Reader, Writer};
use crate::plan::NODE_PLACES;
use crate::rules::{checked, good};
use crate::store::Held;
use crate::{Answer, Number, Plan, Store};

/// Writes the store's image at the buffer's beginning.
pub fn save(store: &Store, buffer: &mut [u8]) -> Answer {
    let Some(plan) = checked(store) else { return Answer::bare(Number::BadStore) };
    let mut needed = 0;
    each_number(store, plan, |number| needed += length(number));
    if buffer.len() < needed {
        return Answer::with(Number::Small, needed as u64);
    }
    let mut writer = Writer { bytes: buffer, at: 0 };
    each_number(store, plan, |number| writer.number(number));
    Answer::with(Number::Done, needed as u64)
}

/// The image's numbers, one after another.
fn each_number(store: &Store, plan: &Plan, mut take: impl FnMut(u32)) {
    take(1);
    take(store.plan);
    take(store.clock);
    for node in 0..plan.nodes() {
        take(store.counts[node]);
        let first = node * NODE_PLACES;
        for place in first..first + store.counts[node] as usize {
            let copy = store.get(place);
            take(copy.key);
            take(copy.kind);
            if copy.kind == 1 {
                take(copy.value);
            }
            take(copy.stamp);
        }
    }
}

/// Makes the store the one that the image holds, or answers the first fault and makes it a fresh one of plan 1.
pub fn load(store: &mut Store, bytes: &[u8]) -> Answer {
    match read(store, bytes) {
        Ok(copies) => Answer::with(Number::Done, copies),
        Err(fault) => {
            *store = Store::empty(1);
            fault
        }
    }
}

/// Reads an image from the left; the first fault wins.
fn read(store: &mut Store, bytes: &[u8]) -> Result<u64, Answer> {
    let mut reader = Reader { bytes, at: 0 };
    reader.checked(|format| format == 1, Number::Format)?;
    let number = reader.checked(|plan| Plan::numbered(plan).is_some(), Number::Plan)?;
    *store = Store::empty(number);
    store.clock = reader.checked(|clock| clock != 0, Number::Rule)?;
    let mut copies = 0;
    if let Some(plan) = Plan::numbered(number) {
        for (node, &capacity) in plan.capacities.iter().enumerate() {
            copies += u64::from(read_node(store, &mut reader, node, capacity)?);
        }
    }
    if !reader.at_end() {
        return Err(Answer::with(Number::Trail, reader.at as u64));
    }
    if !good(store) {
        return Err(Answer::with(Number::Rule, bytes.len() as u64));
    }
    Ok(copies)
}

/// Reads a node's count and its copies.
fn read_node(store: &mut Store, reader: &mut Reader, node: usize, capacity: usize) -> Result<u32, Answer> {
    let count = reader.checked(|count| count as usize <= capacity, Number::Rule)?;
    for at in 0..count as usize {
        let held = read_copy(reader)?;
        store.put(node * NODE_PLACES + at, held);
    }
    store.counts[node] = count;
    Ok(count)
}

fn read_copy(reader: &mut Reader) -> Result<Held, Answer> {
    let key = reader.number()?;
    let kind = reader.checked(|kind| kind <= 1, Number::Rule)?;
    let value = if kind == 1 { reader.number()? } else { 0 };
    let stamp = reader.number()?;
    Ok(Held { key, kind, value, stamp })
}
