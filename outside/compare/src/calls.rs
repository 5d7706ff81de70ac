//! One call on both sides, and what is held against each other.

use crate::record::Record;

/// Bytes on both sides of a lent buffer; a call must leave them.
const GUARD: usize = 16;

/// A public call with its numbers. A buffer is given by its bytes before the call.
#[derive(Clone, Debug)]
pub enum Call {
    Fresh(u32),
    Step(u32, u32, u32),
    Good,
    Look(u32),
    Save(Vec<u8>),
    Load(Vec<u8>),
    Page(u32, Vec<u8>),
    Serve(u32, Vec<u8>),
}

/// The same store on both sides.
pub struct Pair {
    pub model: model::Store,
    pub library: olipranj::Raw,
    /// How often each answer number was given.
    pub tally: [u64; 20],
    pub record: Option<Record>,
}

/// What a call gave: its answer, and the bytes around and in its buffer.
#[derive(Debug, PartialEq)]
pub struct Outcome {
    pub answer: olipranj::Answer,
    pub bytes: Vec<u8>,
}

/// A difference between the two sides.
#[derive(Debug)]
pub struct Difference {
    pub what: String,
}

impl Difference {
    pub fn new(what: impl Into<String>) -> Difference {
        Difference { what: what.into() }
    }
}

/// A store of the model in the library's type.
pub fn to_raw(store: &model::Store) -> olipranj::Raw {
    let slot = |slot: model::Slot| olipranj::Slot {
        running: slot.running,
        key: slot.key,
        node: slot.node,
        visits: slot.visits,
    };
    olipranj::Raw {
        plan: store.plan,
        clock: store.clock,
        counts: store.counts,
        keys: store.keys,
        kinds: store.kinds,
        values: store.values,
        stamps: store.stamps,
        slots: store.slots.map(slot),
    }
}

pub fn to_answer(answer: model::Answer) -> olipranj::Answer {
    let model::Answer { number, a, b, c, d } = answer;
    olipranj::Answer { number, a, b, c, d }
}

fn shown(length: usize) -> olipranj::Answer {
    olipranj::Answer { number: 0, a: length as u64, b: 0, c: 0, d: 0 }
}

fn guarded(bytes: &[u8]) -> Vec<u8> {
    let mut all = vec![0xA5; GUARD];
    all.extend_from_slice(bytes);
    all.extend_from_slice(&[0x5A; GUARD]);
    all
}

/// Lends the middle of guarded bytes to a call.
fn lend(bytes: &[u8], call: impl FnOnce(&mut [u8]) -> olipranj::Answer) -> Outcome {
    let mut all = guarded(bytes);
    let end = all.len() - GUARD;
    let answer = call(&mut all[GUARD..end]);
    Outcome { answer, bytes: all }
}

impl Pair {
    pub fn new(store: model::Store, record: Option<Record>) -> Pair {
        let mut pair = Pair { library: to_raw(&store), model: store, tally: [0; 20], record };
        pair.put(pair.model.clone());
        pair
    }

    /// Lays the same store down on both sides.
    pub fn put(&mut self, store: model::Store) {
        self.library = to_raw(&store);
        self.model = store;
        if let Some(record) = &mut self.record {
            record.put(&self.model);
        }
    }

    fn on_model(&mut self, call: &Call) -> Outcome {
        let store = &mut self.model;
        match call {
            Call::Fresh(plan) => lend(&[], |_| to_answer(model::fresh(store, *plan))),
            Call::Step(number, x, y) => {
                let record = model::Step { number: *number, x: *x, y: *y };
                lend(&[], |_| to_answer(model::run(store, &[record], 0)))
            }
            Call::Good => lend(&[], |_| to_answer(checked(store))),
            Call::Look(key) => lend(&[], |_| to_answer(model::look(store, *key))),
            Call::Save(bytes) => lend(bytes, |buffer| to_answer(model::save(store, buffer))),
            Call::Load(bytes) => lend(bytes, |image| to_answer(model::load(store, image))),
            Call::Page(sample, bytes) => lend(bytes, |buffer| to_answer(model::page(store, *sample, buffer))),
            Call::Serve(sample, bytes) => lend(bytes, |kept| shown(model::serve(store, *sample, kept))),
        }
    }

    fn on_library(&mut self, call: &Call) -> Outcome {
        let store = &mut self.library;
        match call {
            Call::Fresh(plan) => lend(&[], |_| store.fresh_here(*plan)),
            Call::Step(number, x, y) => lend(&[], |_| by_name(store, *number, *x, *y)),
            Call::Good => lend(&[], |_| store.good()),
            Call::Look(key) => lend(&[], |_| store.look(*key)),
            Call::Save(bytes) => lend(bytes, |buffer| store.save(buffer)),
            Call::Load(bytes) => lend(bytes, |image| store.load_here(image)),
            Call::Page(sample, bytes) => lend(bytes, |buffer| store.page(*sample, buffer)),
            Call::Serve(sample, bytes) => lend(bytes, |kept| shown(store.true_bytes(*sample, kept))),
        }
    }

    /// Makes the call on both sides and holds answers, stores and bytes against each other.
    pub fn call(&mut self, call: Call) -> Result<olipranj::Answer, Difference> {
        let before = self.model.clone();
        let model = self.on_model(&call);
        let library = self.on_library(&call);
        if let Some(record) = &mut self.record {
            record.call(&call, &model.answer, &model.bytes[GUARD..model.bytes.len() - GUARD], &self.model);
        }
        let same = model == library && to_raw(&self.model) == self.library;
        if same {
            self.tally[model.answer.number as usize] += 1;
            return Ok(model.answer);
        }
        Err(self.difference(&before, &call, &model, &library))
    }

    /// The same where the answer does not matter.
    pub fn same(&mut self, call: Call) -> Result<(), Difference> {
        self.call(call).map(|_| ())
    }

    fn difference(
        &self,
        before: &model::Store,
        call: &Call,
        model: &Outcome,
        library: &Outcome,
    ) -> Difference {
        let mut what = format!("{call:02X?}\n  model   {:?}\n  library {:?}\n", model.answer, library.answer);
        if model.bytes != library.bytes {
            what += &format!(
                "  bytes differ\n  model   {:02X?}\n  library {:02X?}\n",
                model.bytes, library.bytes
            );
        }
        let ours = words(&to_raw(&self.model));
        let theirs = words(&self.library);
        for (at, (one, other)) in
            ours.iter().zip(&theirs).enumerate().filter(|(_, (one, other))| one != other)
        {
            what += &format!("  word {at} of the store after: model {one}, library {other}\n");
        }
        what += &format!("  store before: {}", crate::stores::describe(before));
        Difference::new(what)
    }
}

/// The check alone, as the model answers it.
fn checked(store: &model::Store) -> model::Answer {
    model::Answer::bare(if model::good(store) { model::Number::Done } else { model::Number::BadStore })
}

/// The wrapper's call for a step's number.
fn by_name(store: &mut olipranj::Raw, number: u32, x: u32, y: u32) -> olipranj::Answer {
    match number {
        1 => store.enter(x, y),
        2 if y == 0 => store.withdraw(x),
        3 => store.carry(x, y),
        4 if y == 0 => store.start(x),
        5 if y == 0 => store.step(x),
        6 if y == 0 => store.cancel(x),
        _ => store.numbered(number, x, y),
    }
}

/// All numbers of a store in the order of its bytes.
pub fn words(raw: &olipranj::Raw) -> Vec<u32> {
    let mut all = vec![raw.plan, raw.clock];
    all.extend(raw.counts);
    for column in [&raw.keys, &raw.kinds, &raw.values, &raw.stamps] {
        all.extend(column);
    }
    for slot in raw.slots {
        all.extend([slot.running, slot.key, slot.node, slot.visits]);
    }
    all
}
