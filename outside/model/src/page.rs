//! The household's bytes: page and serve.

use crate::number::{length, Writer};
use crate::plan::NODE_PLACES;
use crate::rules::checked;
use crate::{Answer, Number, Plan, Store};

/// The most bytes that a page takes.
pub const LONGEST_PAGE: usize = 357;
const LAST_SAMPLE: u32 = 134_217_727;
const ANALYTES: usize = 32;

/// A sample's current results, by analyte.
type Results = [Option<(u32, u32)>; ANALYTES];

/// Writes the sample's page at the buffer's beginning.
pub fn page(store: &Store, sample: u32, buffer: &mut [u8]) -> Answer {
    let results = match results(store, sample) {
        Ok(results) => results,
        Err(refusal) => return refusal,
    };
    let mut needed = 0;
    each_number(sample, &results, |number| needed += length(number));
    if buffer.len() < needed {
        return Answer::with(Number::Small, needed as u64);
    }
    let mut writer = Writer { bytes: buffer, at: 0 };
    each_number(sample, &results, |number| writer.number(number));
    Answer::with(Number::Done, needed as u64)
}

/// How many of the kept bytes are the sample's page as it is now; 0 if they do not begin with it.
pub fn serve(store: &Store, sample: u32, kept: &[u8]) -> usize {
    let mut scratch = [0; LONGEST_PAGE];
    let answer = page(store, sample, &mut scratch);
    if !answer.is_done() {
        return 0;
    }
    let length = answer.a as usize;
    if kept.starts_with(&scratch[..length]) {
        length
    } else {
        0
    }
}

/// The sample's results, or the refusal.
fn results(store: &Store, sample: u32) -> Result<Results, Answer> {
    let Some(plan) = checked(store) else { return Err(Answer::bare(Number::BadStore)) };
    if sample > LAST_SAMPLE {
        return Err(Answer::bare(Number::Sample));
    }
    Ok(current(store, plan, sample * ANALYTES as u32))
}

/// The current results of the lines from a first key on.
///
/// Each copy is on its key's path, and node numbers rise down a path: a key's first copy by node number is the one
/// that a look finds.
fn current(store: &Store, plan: &Plan, first: u32) -> Results {
    let mut seen = [false; ANALYTES];
    let mut results = [None; ANALYTES];
    for node in 0..plan.nodes() {
        let keys = store.node_keys(node);
        let begin = keys.partition_point(|&key| key < first);
        for (at, &key) in keys.iter().enumerate().skip(begin) {
            let analyte = (key - first) as usize;
            if analyte >= ANALYTES {
                break;
            }
            let copy = store.get(node * NODE_PLACES + at);
            if !seen[analyte] && copy.kind == 1 {
                results[analyte] = Some((copy.value, copy.stamp));
            }
            seen[analyte] = true;
        }
    }
    results
}

/// The page's numbers, one after another.
fn each_number(sample: u32, results: &Results, mut take: impl FnMut(u32)) {
    take(sample);
    take(results.iter().flatten().count() as u32);
    for (analyte, result) in results.iter().enumerate() {
        if let Some((value, stamp)) = *result {
            take(analyte as u32);
            take(value);
            take(stamp);
        }
    }
}
