//! Schedules: decoding, the runner, the program's lines.

use crate::number::Reader;
use crate::rules::good;
use crate::{cancel, carry, enter, fresh, start, step, withdraw};
use crate::{Answer, Number, Plan, Store};

/// The most steps of a schedule.
pub const STEPS: usize = 256;
/// The bytes of its input that the program reads.
pub const PROGRAM_BYTES: usize = 65_536;

/// A step record: the step's number and two more, 0 where unused.
#[repr(C)]
#[derive(Clone, Copy, Debug, Default, PartialEq, Eq)]
#[allow(missing_docs)]
pub struct Step {
    pub number: u32,
    pub x: u32,
    pub y: u32,
}

/// Decodes a schedule in full into a lent list; a refused one leaves the list as it was.
pub fn decode(bytes: &[u8], list: &mut [Step]) -> Answer {
    if list.len() < STEPS {
        return Answer::with(Number::Small, STEPS as u64);
    }
    let mut steps = [Step::default(); STEPS];
    match read(bytes, &mut steps) {
        Ok((plan, count)) => {
            list[..count].copy_from_slice(&steps[..count]);
            Answer::full(Number::Done, count as u64, plan.into(), 0, 0)
        }
        Err(fault) => fault,
    }
}

/// Reads the plan and the steps from the left; the first fault wins.
fn read(bytes: &[u8], steps: &mut [Step; STEPS]) -> Result<(u32, usize), Answer> {
    let mut reader = Reader { bytes, at: 0 };
    let plan = reader.checked(|plan| Plan::numbered(plan).is_some(), Number::Plan)?;
    let mut count = 0;
    while !reader.at_end() {
        if count == STEPS {
            return Err(Answer::with(Number::Many, reader.at as u64));
        }
        steps[count] = read_step(&mut reader)?;
        count += 1;
    }
    Ok((plan, count))
}

fn read_step(reader: &mut Reader) -> Result<Step, Answer> {
    let number = reader.checked(|number| (1..=6).contains(&number), Number::Op)?;
    let x = reader.number()?;
    let y = if matches!(number, 1 | 3) { reader.number()? } else { 0 };
    Ok(Step { number, x, y })
}

/// Does the record at a place of the list.
pub fn run(store: &mut Store, list: &[Step], place: usize) -> Answer {
    match list.get(place) {
        Some(&Step { number: 1, x, y }) => enter(store, x, y),
        Some(&Step { number: 2, x, .. }) => withdraw(store, x),
        Some(&Step { number: 3, x, y }) => carry(store, x, y),
        Some(&Step { number: 4, x, .. }) => start(store, x),
        Some(&Step { number: 5, x, .. }) => step(store, x),
        Some(&Step { number: 6, x, .. }) => cancel(store, x),
        _ if !good(store) => Answer::bare(Number::BadStore),
        _ => Answer::with(Number::Op, place as u64),
    }
}

/// What the program prints for its input.
pub fn program(input: &[u8]) -> String {
    let bytes = &input[..input.len().min(PROGRAM_BYTES)];
    let mut list = [Step::default(); STEPS];
    let decoded = decode(bytes, &mut list);
    let mut lines = line(0, &Answer { b: 0, ..decoded });
    if decoded.is_done() {
        let mut store = Store::empty(1);
        fresh(&mut store, decoded.b as u32);
        for place in 0..decoded.a as usize {
            let answer = run(&mut store, &list, place);
            lines += &line(list[place].number, &answer);
        }
    }
    lines
}

fn line(step: u32, answer: &Answer) -> String {
    let Answer { number, a, b, c, d } = answer;
    format!("{step} {number} {a} {b} {c} {d}\n")
}
