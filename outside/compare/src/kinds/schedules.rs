//! Schedules: what the program prints, beside the model's lines.

use std::path::Path;
use std::process::{Command, Stdio};

use super::{a_plan, damage, no_plan, put_number};
use crate::calls::{Call, Difference, Pair};
use crate::random::Random;
use crate::stores::pool;

/// Runs the program on a random schedule, good or damaged, and tallies the answers of its lines.
pub fn case(random: &mut Random, pair: &mut Pair, program: &Path) -> Result<(), Difference> {
    let bytes = schedule(random);
    let expected = model::program(&bytes);
    let printed =
        run(program, &bytes).map_err(|error| Difference::new(format!("{}: {error}", program.display())))?;
    if printed == expected.as_bytes() {
        expected.lines().for_each(|line| pair.tally[answer(line)] += 1);
        return Ok(());
    }
    let text = String::from_utf8_lossy(&printed);
    let at = expected.lines().zip(text.lines()).position(|(one, other)| one != other);
    Err(Difference::new(format!(
        "schedule {bytes:02X?}\n  first line that differs: {at:?}\n  model:\n{expected}\n  program:\n{text}"
    )))
}

/// The answer number of a printed line.
fn answer(line: &str) -> usize {
    line.split(' ').nth(1).and_then(|word| word.parse().ok()).expect("a line of six numbers")
}

/// The program's output for a file of bytes.
fn run(program: &Path, bytes: &[u8]) -> std::io::Result<Vec<u8>> {
    let file = std::env::temp_dir().join(format!("compare-{}", std::process::id()));
    std::fs::write(&file, bytes)?;
    let output = Command::new(program).arg(&file).stderr(Stdio::inherit()).output();
    std::fs::remove_file(&file)?;
    Ok(output?.stdout)
}

fn schedule(random: &mut Random) -> Vec<u8> {
    let keys = pool(random);
    let plan = if random.once_in(12) { no_plan(random) } else { a_plan(random) };
    let mut bytes = Vec::new();
    put_number(&mut bytes, plan);
    for _ in 0..random.pick(&[0, 1, 8, 100, 255, 256, 256, 257]) {
        let Call::Step(number, x, y) = super::steps::step(random, &keys, 4) else { continue };
        put_step(random, &mut bytes, number, x, y);
    }
    if random.once_in(3) {
        damage(random, &mut bytes);
    }
    if random.once_in(40) {
        bytes.extend(random.bytes(70_000));
    }
    bytes
}

/// A step's bytes; an unknown step number rarely.
fn put_step(random: &mut Random, bytes: &mut Vec<u8>, number: u32, x: u32, y: u32) {
    let known = (1..=6).contains(&number);
    put_number(bytes, if known || random.once_in(10) { number } else { 4 });
    put_number(bytes, x);
    if matches!(number, 1 | 3) {
        put_number(bytes, y);
    }
}
