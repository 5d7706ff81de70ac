//! Compares the proved library with the model.
//!
//!     compare [--seed N] [--count N] [--kind KIND] [--case N] [--program PATH] [--write FILE]
//!
//! Kinds: steps, images, pages, serve, stores, books, shelves, schedules; without one, all of them, schedules only
//! with a program.
//! Each case has random numbers of its own, so a case that differs is run again by its seed, kind and number.

#![forbid(unsafe_code)]

mod breaks;
mod calls;
mod kinds;
mod naive;
mod random;
mod record;
mod stores;

use std::path::PathBuf;
use std::process::ExitCode;
use std::time::{Duration, Instant};

use calls::{Difference, Pair};
use random::Random;
use record::Record;

const KINDS: [&str; 8] = ["steps", "images", "pages", "serve", "stores", "books", "shelves", "schedules"];

/// Kinds with long cases: one for eight of the others.
const LONG: [&str; 2] = ["books", "shelves"];

struct Options {
    seed: u64,
    count: u64,
    kinds: Vec<&'static str>,
    case: Option<u64>,
    program: Option<PathBuf>,
    write: Option<PathBuf>,
}

fn options() -> Result<Options, String> {
    let mut options =
        Options { seed: 1, count: 1000, kinds: KINDS.to_vec(), case: None, program: None, write: None };
    let mut words = std::env::args().skip(1);
    while let Some(word) = words.next() {
        let value = words.next().ok_or(format!("{word} needs a value"))?;
        let number = || value.parse::<u64>().map_err(|_| format!("{word} {value}: not a number"));
        match word.as_str() {
            "--seed" => options.seed = number()?,
            "--count" => options.count = number()?,
            "--case" => options.case = Some(number()?),
            "--kind" => {
                let kind = KINDS.iter().find(|kind| **kind == value).ok_or(format!("no kind {value}"))?;
                options.kinds = vec![kind];
            }
            "--program" => options.program = Some(value.into()),
            "--write" => options.write = Some(value.into()),
            _ => return Err(format!("no option {word}")),
        }
    }
    Ok(options)
}

fn case(
    options: &Options,
    kind: &str,
    random: &mut Random,
    pair: &mut Pair,
    turn: u64,
) -> Result<(), Difference> {
    match (kind, &options.program) {
        ("steps", _) => kinds::steps::case(random, pair),
        ("images", _) => kinds::images::case(random, pair),
        ("pages", _) => kinds::pages::case(random, pair),
        ("serve", _) => kinds::serve::case(random, pair),
        ("stores", _) => kinds::stores::case(random, pair, turn),
        ("books", _) => kinds::books::case(random, pair),
        ("shelves", _) => kinds::shelves::case(random, pair),
        (_, Some(program)) => kinds::schedules::case(random, pair, program),
        (_, None) => Ok(()),
    }
}

/// All cases of a kind.
fn run(options: &Options, kind: &'static str, pair: &mut Pair) -> Result<(), (u64, Difference)> {
    let begun = Instant::now();
    let mut said = begun;
    pair.tally = [0; 20];
    let count = options.count.div_ceil(if LONG.contains(&kind) { 8 } else { 1 });
    let cases = options.case.map_or(0..count, |case| case..case + 1);
    let total = cases.end - cases.start;
    for turn in cases.clone() {
        let mut random = Random::of_case(options.seed, kind, turn);
        case(options, kind, &mut random, pair, turn).map_err(|difference| (turn, difference))?;
        if said.elapsed() > Duration::from_secs(3) {
            said = Instant::now();
            eprintln!("  {kind}: {} of {total} cases", turn - cases.start + 1);
        }
    }
    let calls: u64 = pair.tally.iter().sum();
    let compared = if kind == "schedules" { "lines" } else { "calls" };
    let seconds = begun.elapsed().as_secs_f64();
    println!("{kind}: {total} cases, {calls} {compared} compared, no difference ({seconds:.1} s)");
    let given = olipranj::Number::ALL.iter().zip(pair.tally).filter(|(_, times)| *times > 0);
    let given: Vec<String> = given.map(|(number, times)| format!("{number:?} {times}")).collect();
    if !given.is_empty() {
        println!("  answers: {}", given.join(", "));
    }
    Ok(())
}

fn main() -> ExitCode {
    let options = match options() {
        Ok(options) => options,
        Err(fault) => {
            eprintln!("compare: {fault}");
            return ExitCode::from(2);
        }
    };
    let record =
        options.write.as_ref().map(|path| Record::create(path).expect("the file of calls can be made"));
    let mut pair = Pair::new(model::Store::empty(1), record);
    for kind in &options.kinds {
        if *kind == "schedules" && options.program.is_none() {
            println!("schedules: left out, they need --program");
            continue;
        }
        if let Err((turn, difference)) = run(&options, kind, &mut pair) {
            println!("DIFFERENCE in {kind}, --seed {} --case {turn}: {}", options.seed, difference.what);
            return ExitCode::FAILURE;
        }
    }
    ExitCode::SUCCESS
}
