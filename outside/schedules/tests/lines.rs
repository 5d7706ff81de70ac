//! Lines that are not of the schedule are no answer to it.

use schedules::{explain, Picture};

const SCHEDULE: &[u8] = &[1, 1, 33, 180, 1, 5, 0];

#[test]
fn lines_of_this_schedule_alone() {
    let (plan, told) = explain(SCHEDULE, "0 0 2 0 0 0\n1 0 1 0 0 0\n5 10 0 0 0 0\n").expect("its lines");
    let words: Vec<_> = told.iter().map(|told| told.words.as_str()).collect();
    let wanted = [
        "schedule: done, plan 1, 2 steps",
        "enter 1/1 180: done, stamp 1",
        "step 0: refused, IDLE: the slot is not running",
    ];
    assert_eq!((plan, words), (1, wanted.to_vec()));
    for other in [
        "",
        "0 0 2 0 0 0\n1 0 1 0 0 0\n",
        "0 0 2 0 0 0\n5 10 0 0 0 0\n1 0 1 0 0 0\n",
        "0 0 1 0 0 0\n1 0 1 0 0 0\n",
        "0 13 2 0 0 0\n",
        "0 0 2 0 0 0\n1 0 1 0 0\n5 10 0 0 0 0\n",
        "0 0 2 0 0 0\n1 0 1 0 0 x\n5 10 0 0 0 0\n",
        "1 0 2 0 0 0\n1 0 1 0 0 0\n5 10 0 0 0 0\n",
    ] {
        assert!(explain(SCHEDULE, other).is_err(), "{other}");
    }
}

#[test]
fn a_refused_schedule() {
    let (_, told) = explain(&[1, 1, 33], "0 13 3 0 0 0\n").expect("its line");
    let wanted = "schedule: refused, CUT at byte 3: the bytes end before a number or inside it";
    assert_eq!(told.iter().map(|told| told.words.as_str()).collect::<Vec<_>>(), [wanted]);
}

/// A mixed schedule as the model runs it: each answer has its words, and is the library's.
#[test]
fn each_answer_has_words() {
    let mut bytes = vec![3];
    for step in 0..255_u32 {
        let number = [1, 1, 1, 3, 5, 4, 5, 6, 2, 5][step as usize % 10];
        bytes.extend([number, (step % 13) as u8]);
        if matches!(number, 1 | 3) {
            bytes.push((step % 3) as u8);
        }
    }
    let (plan, told) = explain(&bytes, &model::program(&bytes)).expect("its lines");
    let mut picture = Picture::fresh(plan).expect("plan 3 exists");
    assert_eq!(told.len(), 256);
    for told in told {
        assert!(!told.words.contains("no rule names"), "{}", told.words);
        if let Some((step, answer)) = told.of {
            picture.after(&step, &answer).expect("the library's answer is the model's");
        }
    }
}

#[test]
fn another_answer_is_no_picture() {
    let (_, told) = explain(SCHEDULE, "0 0 2 0 0 0\n1 0 2 0 0 0\n5 10 0 0 0 0\n").expect("its lines");
    let (step, answer) = told[1].of.expect("a step");
    assert!(Picture::fresh(1).expect("plan 1 exists").after(&step, &answer).is_err());
}
