//! A schedule's bytes.

use model::{Answer, Step, STEPS};

use crate::Schedule;

/// A schedule as bytes.
pub fn to_bytes(schedule: &Schedule) -> Vec<u8> {
    let mut bytes = Vec::new();
    put_number(&mut bytes, schedule.plan);
    for step in &schedule.steps {
        put_number(&mut bytes, step.number);
        put_number(&mut bytes, step.x);
        if matches!(step.number, 1 | 3) {
            put_number(&mut bytes, step.y);
        }
    }
    bytes
}

/// The schedule that the bytes hold, or the answer that refuses them.
pub fn from_bytes(bytes: &[u8]) -> Result<Schedule, Answer> {
    let mut list = [Step::default(); STEPS];
    let answer = model::decode(bytes, &mut list);
    if answer.is_done() {
        Ok(Schedule { plan: answer.b as u32, steps: list[..answer.a as usize].to_vec() })
    } else {
        Err(answer)
    }
}

fn put_number(bytes: &mut Vec<u8>, mut number: u32) {
    while number >= 0x80 {
        bytes.push(number as u8 | 0x80);
        number >>= 7;
    }
    bytes.push(number as u8);
}
