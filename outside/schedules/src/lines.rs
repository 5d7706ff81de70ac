//! The lines that the program prints, held against the schedule that it was given, and told in words.

use model::{Answer, Number, Step};

use crate::bytes::from_bytes;
use crate::words::{answered, decoded};
use crate::Schedule;

/// A line in words, and the step and answer of which it tells; the first line tells of none.
#[derive(Clone, Debug, PartialEq, Eq)]
#[allow(missing_docs)]
pub struct Told {
    pub words: String,
    pub of: Option<(Step, Answer)>,
}

/// The plan of a schedule's bytes, 0 if they are refused, and the program's lines for them in words. Lines that cannot be
/// of that schedule are an error.
pub fn explain(bytes: &[u8], lines: &str) -> Result<(u32, Vec<Told>), String> {
    let read = lines.lines().map(numbers).collect::<Option<Vec<_>>>();
    let Some(((0, first), rest)) = read.as_ref().and_then(|all| all.split_first()) else {
        return Err("the program's lines are not lines of six numbers".to_string());
    };
    let (plan, steps, wanted) = match from_bytes(bytes) {
        Ok(Schedule { plan, steps }) => {
            let done = Answer::with(Number::Done, steps.len() as u64);
            (plan, steps, done)
        }
        Err(answer) => (0, Vec::new(), answer),
    };
    let same = rest.iter().map(|(number, _)| *number).eq(steps.iter().map(|step| step.number));
    if *first != wanted || !same {
        return Err("the program's lines are not of this schedule".to_string());
    }
    let mut told = vec![Told { words: format!("schedule: {}", decoded(first, plan)), of: None }];
    for (step, (_, answer)) in steps.iter().zip(rest) {
        told.push(Told { words: answered(step, answer), of: Some((*step, *answer)) });
    }
    Ok((plan, told))
}

/// The six numbers of a line: the step's number, and its answer.
fn numbers(line: &str) -> Option<(u32, Answer)> {
    let words = line.split(' ').map(|word| word.parse().ok()).collect::<Option<Vec<u64>>>()?;
    let &[step, number, a, b, c, d] = words.as_slice() else { return None };
    Some((step.try_into().ok()?, Answer { number: number.try_into().ok()?, a, b, c, d }))
}
