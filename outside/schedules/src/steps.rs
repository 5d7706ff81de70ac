//! How each step is written.

use model::Step;

/// What a number of a step is.
#[derive(Clone, Copy, Debug, PartialEq, Eq)]
#[allow(missing_docs)]
pub enum Part {
    Key,
    Value,
    Node,
    Edge,
    Slot,
}

/// A step's name, its own numbers, and how a line of it is written.
#[derive(Debug)]
#[allow(missing_docs)]
pub struct StepForm {
    pub name: &'static str,
    pub parts: &'static [Part],
    pub written: &'static str,
}

const fn form(name: &'static str, parts: &'static [Part], written: &'static str) -> StepForm {
    StepForm { name, parts, written }
}

/// The forms of the steps 1 to 6, in that order.
pub const FORMS: [StepForm; 6] = [
    form("enter", &[Part::Key, Part::Value], "enter SAMPLE/ANALYTE VALUE"),
    form("withdraw", &[Part::Key], "withdraw SAMPLE/ANALYTE"),
    form("carry", &[Part::Node, Part::Edge], "carry NODE EDGE"),
    form("start", &[Part::Key], "start SAMPLE/ANALYTE"),
    form("step", &[Part::Slot], "step SLOT"),
    form("cancel", &[Part::Slot], "cancel SLOT"),
];

/// How keys are written.
#[derive(Clone, Copy, Debug, PartialEq, Eq)]
pub enum Keys {
    /// As sample and analyte, `1/1`.
    Lines,
    /// As they are, `33`.
    Plain,
}

/// A key as text.
pub fn shown_key(key: u32, keys: Keys) -> String {
    match keys {
        Keys::Lines => format!("{}/{}", key / 32, key % 32),
        Keys::Plain => key.to_string(),
    }
}

/// A step as text. The step's number must be 1 to 6, as of every decoded step.
pub fn shown(step: &Step, keys: Keys) -> String {
    let form = &FORMS[step.number as usize - 1];
    let mut text = form.name.to_string();
    for (part, number) in form.parts.iter().zip([step.x, step.y]) {
        text.push(' ');
        text += &match part {
            Part::Key => shown_key(number, keys),
            _ => number.to_string(),
        };
    }
    text
}
