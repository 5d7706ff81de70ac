//! Text to bytes and back: what is written is read again, and each mistake is said with its line.

use model::Step;
use schedules::{from_bytes, from_text, shown, to_bytes, to_text, Keys, Schedule, FORMS};

/// A small generator of numbers, the same on every run.
struct Numbers(u64);

impl Numbers {
    fn next(&mut self) -> u32 {
        self.0 = self.0.wrapping_mul(6_364_136_223_846_793_005).wrapping_add(1_442_695_040_888_963_407);
        let width = (self.0 >> 59) as u32;
        (self.0 >> 27) as u32 >> width
    }
}

/// A schedule of so many steps.
fn schedule(numbers: &mut Numbers, count: usize) -> Schedule {
    let steps = (0..count).map(|_| {
        let number = numbers.next() % 6 + 1;
        let two = FORMS[number as usize - 1].parts.len() == 2;
        Step { number, x: numbers.next(), y: if two { numbers.next() } else { 0 } }
    });
    let steps = steps.collect();
    Schedule { plan: numbers.next() % 3 + 1, steps }
}

#[test]
fn text_and_bytes_say_the_same() {
    let mut numbers = Numbers(1);
    for count in 0..=256 {
        let schedule = schedule(&mut numbers, count);
        let bytes = to_bytes(&schedule);
        assert_eq!(from_bytes(&bytes).as_ref(), Ok(&schedule));
        for keys in [Keys::Lines, Keys::Plain] {
            let text = to_text(&schedule, keys);
            assert_eq!(from_text(text.as_bytes()).as_ref(), Ok(&schedule));
            assert_eq!(text.lines().count(), 1 + count);
        }
    }
}

#[test]
fn good_bytes_come_back_byte_for_byte() {
    let mut numbers = Numbers(2);
    for _ in 0..20_000 {
        let count = numbers.next() % 12 + 1;
        let bytes: Vec<u8> = (0..count).map(|_| (numbers.next() % 8) as u8).collect();
        if let Ok(schedule) = from_bytes(&bytes) {
            assert_eq!(to_bytes(&schedule), bytes);
        }
    }
}

#[test]
fn the_largest_numbers() {
    let text =
        "plan 3\nenter 134217727/31 4294967295\nwithdraw 4294967295\ncarry 4294967295 4294967295\nstep 0\n";
    let read = from_text(text.as_bytes()).expect("a good text");
    assert_eq!(read.steps[0], Step { number: 1, x: u32::MAX, y: u32::MAX });
    assert_eq!(shown(&read.steps[1], Keys::Lines), "withdraw 134217727/31");
    assert_eq!(shown(&read.steps[1], Keys::Plain), "withdraw 4294967295");
}

#[test]
fn remarks_spaces_and_line_ends() {
    let text = "# a day\n\n  plan   1 # the first\r\n\tenter 1/1\t180#\r\n\r\nstep 0";
    let read = from_text(text.as_bytes()).expect("a good text");
    assert_eq!(to_text(&read, Keys::Lines), "plan 1\nenter 1/1 180\nstep 0\n");
}

/// The mistakes of a text, each as it is said.
fn mistakes(text: &[u8]) -> Vec<String> {
    from_text(text).expect_err("mistakes").iter().map(ToString::to_string).collect()
}

#[test]
fn a_text_without_a_plan() {
    assert_eq!(mistakes(b""), ["line 1: no line names the plan, as in: plan 1"]);
    assert_eq!(mistakes(b"# nothing\n\n"), ["line 3: no line names the plan, as in: plan 1"]);
    let late = [
        "line 1: the plan comes before all steps, as in: plan 1",
        "line 2: the plan is named once, before all steps",
    ];
    assert_eq!(mistakes(b"step 0\nplan 1\nstep 1"), late);
}

#[test]
fn one_step_too_many() {
    let text = format!("plan 1\n{}", "step 0\n".repeat(258));
    assert_eq!(mistakes(text.as_bytes()), ["line 258: a schedule has at most 256 steps"]);
}

#[test]
fn bytes_that_are_no_text() {
    let names = "steps are enter, withdraw, carry, start, step, cancel";
    assert_eq!(mistakes(b"plan 1\n\x01!")[0], format!("line 2: there is no step \\u{{1}}!: {names}"));
    assert_eq!(mistakes(b"plan 1\nstep \xff\nstep 0"), ["line 2: this is no text: its bytes are not UTF-8"]);
}
