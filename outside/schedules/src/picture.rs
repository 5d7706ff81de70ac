//! The store of a schedule after each step, copy by copy.

use model::{Answer, Plan, Step};
use olipranj::{Raw, Store, NODE_PLACES};

use crate::steps::{shown_key, Keys};

/// The store behind the proved library's calls, as far as the steps were done.
pub struct Picture {
    store: Raw,
}

impl Picture {
    /// A fresh store of the plan.
    pub fn fresh(plan: u32) -> Result<Picture, String> {
        let refused = |refusal| format!("the library answers {refusal} to plan {plan}");
        Store::fresh(plan).map(|store| Picture { store: store.raw().clone() }).map_err(refused)
    }

    /// Does a step, and draws the store. The library's answer must be the program's.
    pub fn after(&mut self, step: &Step, answer: &Answer) -> Result<String, String> {
        let given = self.store.numbered(step.number, step.x, step.y);
        let own = Answer { number: given.number, a: given.a, b: given.b, c: given.c, d: given.d };
        if own == *answer {
            Ok(drawn(&self.store))
        } else {
            Err(format!("the library answers {own:?}, and the program {answer:?}"))
        }
    }
}

/// Each node of the plan with its copies by rising key, then the searches that run.
fn drawn(raw: &Raw) -> String {
    let mut text = String::new();
    let capacities = Plan::numbered(raw.plan).map_or(&[][..], |plan| plan.capacities);
    for (node, capacity) in capacities.iter().enumerate() {
        let count = raw.counts[node] as usize;
        text += &format!("    node {node}: {count} of {capacity}\n");
        for place in node * NODE_PLACES..node * NODE_PLACES + count {
            text += &format!("        {}\n", copy(raw, place));
        }
    }
    for (number, slot) in raw.slots.iter().enumerate().filter(|(_, slot)| slot.running == 1) {
        let key = shown_key(slot.key, Keys::Lines);
        text += &format!("    slot {number}: {key}, node {}, visits {}\n", slot.node, slot.visits);
    }
    text
}

/// The copy at a place.
fn copy(raw: &Raw, place: usize) -> String {
    let key = shown_key(raw.keys[place], Keys::Lines);
    let held = match raw.kinds[place] {
        0 => "withdrawn".to_string(),
        _ => format!("result {}", raw.values[place]),
    };
    format!("{key} {held}, stamp {}", raw.stamps[place])
}
