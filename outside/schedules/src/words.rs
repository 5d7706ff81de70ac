//! Answers in words.

use model::{Answer, Step};

use crate::steps::{shown, Keys};

/// The refusals from number 2 on: the name of each, and when it is given.
const REFUSALS: [(&str, &str); 18] = [
    ("BADSTORE", "the store breaks a store rule"),
    ("PLAN", "the plan's number is not 1 to 3"),
    ("CLOCK", "the clock is at its last value"),
    ("FULL", "the root is full and lacks the key"),
    ("NODE", "the plan has no such node"),
    ("EDGE", "the node has no such edge"),
    ("SLOTS", "all 8 slots run"),
    ("SLOT", "the slot is above 7"),
    ("IDLE", "the slot is not running"),
    ("SMALL", "the buffer or list is too small"),
    ("SAMPLE", "the sample is above 134217727"),
    ("CUT", "the bytes end before a number or inside it"),
    ("NUMBER", "a number is not in its shortest form, or is above 32 bits"),
    ("FORMAT", "an image's format is not 1"),
    ("RULE", "an image breaks a store rule"),
    ("TRAIL", "bytes are left after the image"),
    ("OP", "no step has this number"),
    ("MANY", "bytes are left after 256 steps"),
];

/// The name and meaning of a refusal; none for an answer that is no refusal.
fn refusal(answer: &Answer) -> Option<&'static (&'static str, &'static str)> {
    REFUSALS.get((answer.number as usize).checked_sub(2)?)
}

/// The answer of decode in words; the plan is that of a good schedule.
pub fn decoded(answer: &Answer, plan: u32) -> String {
    match (refusal(answer), answer.a) {
        (Some((name, meaning)), byte) => format!("refused, {name} at byte {byte}: {meaning}"),
        (None, 1) => format!("done, plan {plan}, 1 step"),
        (None, steps) => format!("done, plan {plan}, {steps} steps"),
    }
}

/// A step and its answer in words.
pub fn answered(step: &Step, answer: &Answer) -> String {
    let words = match refusal(answer) {
        Some((name, meaning)) => format!("refused, {name}: {meaning}"),
        None => accepted(step, answer),
    };
    format!("{}: {words}", shown(step, Keys::Lines))
}

fn accepted(step: &Step, answer: &Answer) -> String {
    let Answer { number, a, b, c, d } = answer;
    match (step.number, number, a) {
        (1 | 2, 0, _) => format!("done, stamp {a}"),
        (3, 0, _) => format!("done, carried {a}, discarded {b}, left {c}"),
        (4, 0, _) => format!("done, slot {a}"),
        (5, 0, 0) => format!("done, never entered, visits {d}"),
        (5, 0, 1) => format!("done, withdrawn, stamp {c}, visits {d}"),
        (5, 0, 2) => format!("done, result {b}, stamp {c}, visits {d}"),
        (5, 1, _) => format!("going, node {a}, visits {b}"),
        (6, 0, _) => "done".to_string(),
        _ => format!("answer {number} {a} {b} {c} {d}, which no rule names"),
    }
}
