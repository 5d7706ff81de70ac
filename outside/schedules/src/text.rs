//! Text to a schedule, with every mistake, and back.

use std::fmt;

use model::{Step, PLANS, STEPS};

use crate::steps::{shown, Keys, Part, FORMS};
use crate::Schedule;

const LAST_SAMPLE: u32 = 134_217_727;
const LAST_ANALYTE: u32 = 31;

/// A mistake and its line, from 1.
#[derive(Clone, Debug, PartialEq, Eq)]
#[allow(missing_docs)]
pub struct Mistake {
    pub line: usize,
    pub what: String,
}

impl fmt::Display for Mistake {
    fn fmt(&self, out: &mut fmt::Formatter) -> fmt::Result {
        write!(out, "line {}: {}", self.line, self.what)
    }
}

/// The schedule that a text says, or all mistakes in it by rising line.
pub fn from_text(text: &[u8]) -> Result<Schedule, Vec<Mistake>> {
    let mut reading = Reading::default();
    for line in text.split(|&byte| byte == b'\n') {
        reading.line += 1;
        reading.take(line);
    }
    if !reading.begun {
        reading.wrong("no line names the plan, as in: plan 1".to_string());
    }
    if reading.mistakes.is_empty() {
        Ok(Schedule { plan: reading.plan, steps: reading.steps })
    } else {
        Err(reading.mistakes)
    }
}

/// A schedule as text.
pub fn to_text(schedule: &Schedule, keys: Keys) -> String {
    let mut text = format!("plan {}\n", schedule.plan);
    for step in &schedule.steps {
        text += &shown(step, keys);
        text.push('\n');
    }
    text
}

/// What was read so far, and the line at which the reading is. It has begun once the plan or a step was named.
#[derive(Default)]
struct Reading {
    line: usize,
    begun: bool,
    plan: u32,
    steps: Vec<Step>,
    mistakes: Vec<Mistake>,
}

impl Reading {
    fn wrong(&mut self, what: String) {
        self.mistakes.push(Mistake { line: self.line, what });
    }

    /// Takes a line. What follows a `#` is a remark, and a line without words is nothing.
    fn take(&mut self, line: &[u8]) {
        let Ok(line) = std::str::from_utf8(line) else {
            return self.wrong("this is no text: its bytes are not UTF-8".to_string());
        };
        let said = line.split('#').next().unwrap_or_default();
        let words: Vec<&str> = said.split_whitespace().collect();
        match words.split_first() {
            None => {}
            Some((&"plan", numbers)) => self.take_plan(numbers),
            Some((name, numbers)) => self.take_step(name, numbers),
        }
    }

    fn take_plan(&mut self, words: &[&str]) {
        if self.begun {
            self.wrong("the plan is named once, before all steps".to_string());
        }
        self.begun = true;
        match (words, PLANS.len()) {
            (&[word], last) => match number(word) {
                Ok(plan) if (1..=last as u32).contains(&plan) => self.plan = plan,
                Ok(plan) => self.wrong(format!("there is no plan {plan}: plans are 1 to {last}")),
                Err(what) => self.wrong(what),
            },
            _ => self.wrong("a plan is written: plan NUMBER".to_string()),
        }
    }

    fn take_step(&mut self, name: &str, words: &[&str]) {
        if !self.begun {
            self.begun = true;
            self.wrong("the plan comes before all steps, as in: plan 1".to_string());
        }
        let Some(place) = FORMS.iter().position(|form| form.name == name) else {
            let names = FORMS.map(|form| form.name).join(", ");
            return self.wrong(format!("there is no step {}: steps are {names}", name.escape_debug()));
        };
        let form = &FORMS[place];
        if words.len() != form.parts.len() {
            return self.wrong(format!("{name} is written: {}", form.written));
        }
        let mut numbers = [0; 2];
        for ((part, word), place) in form.parts.iter().zip(words).zip(&mut numbers) {
            match read_part(*part, word) {
                Ok(number) => *place = number,
                Err(what) => self.wrong(what),
            }
        }
        if self.steps.len() == STEPS {
            self.wrong(format!("a schedule has at most {STEPS} steps"));
        }
        self.steps.push(Step { number: place as u32 + 1, x: numbers[0], y: numbers[1] });
    }
}

fn read_part(part: Part, word: &str) -> Result<u32, String> {
    match part {
        Part::Key => key(word),
        _ => number(word),
    }
}

/// A key: as it is, or as sample and analyte.
fn key(word: &str) -> Result<u32, String> {
    let Some((sample, analyte)) = word.split_once('/') else {
        return number(word);
    };
    let (sample, analyte) = (number(sample)?, number(analyte)?);
    if sample > LAST_SAMPLE {
        return Err(format!("sample {sample} is above {LAST_SAMPLE}"));
    }
    if analyte > LAST_ANALYTE {
        return Err(format!("analyte {analyte} is above {LAST_ANALYTE}"));
    }
    Ok(sample * 32 + analyte)
}

/// A number of 32 bits: digits alone, and no 0 before others.
fn number(word: &str) -> Result<u32, String> {
    if word.is_empty() || !word.bytes().all(|byte| byte.is_ascii_digit()) {
        return Err(format!("'{}' is no number", word.escape_debug()));
    }
    if word.len() > 1 && word.starts_with('0') {
        return Err(format!("{word} begins with 0"));
    }
    word.parse().map_err(|_| format!("{word} is above {}", u32::MAX))
}
