//! Books and shelves where entries are refused: full stores of each plan, and last clocks.

use std::num::NonZeroU32;

use olipranj::*;

const NOTICE: &[u8] = b"the notice";

fn line(sample: u32, analyte: u32) -> Line {
    Line::new(sample, analyte).expect("a line")
}

fn stamp(taken: Taken) -> u32 {
    match taken {
        Taken::Entered(stamp) => stamp.0,
        Taken::Pending(refusal) => panic!("{refusal}"),
    }
}

fn refusal(taken: Taken) -> Number {
    match taken {
        Taken::Entered(stamp) => panic!("entered with stamp {stamp}"),
        Taken::Pending(refusal) => refusal.name().expect("a name"),
    }
}

/// A book whose clock is at so many entries before its end.
fn late(plan: u32, left: u32) -> Book {
    let mut raw = Store::fresh(plan).expect("a plan of the table").raw().clone();
    raw.clock = u32::MAX - left;
    Book::new(Store::from_raw(raw).expect("a good store"))
}

/// A book that is full: new lines were entered, in turn of both halves, until two were refused.
fn full(plan: u32) -> Book {
    let mut book = Book::fresh(plan).expect("a plan of the table");
    for sample in 0.. {
        for half in [0, 67_108_864] {
            let _ = book.enter(line(half + sample, 1), sample);
        }
        if book.pending().len() >= 2 {
            return book;
        }
    }
    unreachable!("a store has an end")
}

#[test]
fn a_book_fills_every_place_of_every_plan() {
    for plan in 1..=3 {
        let book = full(plan);
        assert_eq!(book.store().copies(), most_copies(plan) as usize, "plan {plan}");
        assert!(book.pending().iter().all(|pending| pending.refusal.is(Number::Full)));
    }
}

#[test]
fn a_refused_amendment_leaves_no_old_figure_shown() {
    for plan in 1..=3 {
        let mut book = full(plan);
        let old = book.store().nodes().last().and_then(|node| node.copies().next()).expect("a copy").line;
        let sample = old.sample();
        let kept = book.page(sample).expect("nothing is pending").into_bytes();
        assert_eq!(book.serve(sample, &kept, NOTICE), kept);
        assert_eq!(refusal(book.enter(old, 777)), Number::Full);
        assert_eq!(book.store().serve(sample, &kept, NOTICE), kept, "the store alone would show it");
        assert_eq!(book.serve(sample, &kept, NOTICE), NOTICE);
        assert_eq!(book.page(sample), Err(NoPage::Pending(old)));
        assert_eq!(book.look(old), Ok(Current::Pending(Entry::Result(777))));
        let other = book.store().nodes().next().and_then(|root| root.copies().next()).expect("a copy").line;
        assert!(book.page(other.sample()).is_ok(), "another sample is shown");
    }
}

#[test]
fn what_the_root_holds_is_amended_in_a_full_store() {
    let mut book = full(1);
    let held = book.store().nodes().next().and_then(|root| root.copies().next()).expect("a copy").line;
    stamp(book.enter(held, 5));
    stamp(book.withdraw(held));
    assert!(matches!(book.look(held), Ok(Current::Held(Look::Withdrawn(_)))));
}

#[test]
fn the_last_clock_refuses_and_the_notice_is_due() {
    for plan in 1..=3 {
        let mut book = late(plan, 1);
        assert_eq!(stamp(book.enter(line(1, 1), 180)), u32::MAX - 1);
        let kept = book.page(1).expect("nothing is pending").into_bytes();
        assert_eq!(refusal(book.enter(line(1, 2), 3)), Number::Clock);
        assert_eq!(book.serve(1, &kept, NOTICE), NOTICE, "another line of the sample is pending");
        assert_eq!(refusal(book.withdraw(line(1, 1))), Number::Clock);
        assert_eq!(refusal(book.enter(line(1, 1), 210)), Number::Clock);
        assert_eq!(book.look(line(1, 1)), Ok(Current::Pending(Entry::Result(210))), "the last entry counts");
        assert_eq!((book.pending().len(), book.retry()), (2, 2));
        let anew = book.anew(plan).expect("a plan of the table");
        assert_eq!(anew.pending(), []);
        let figures: Vec<(Line, Option<u32>)> = anew
            .store()
            .lines()
            .expect("a good store")
            .iter()
            .map(|(line, look)| (*line, look.value()))
            .collect();
        assert_eq!(figures, [(line(1, 1), Some(210)), (line(1, 2), Some(3))]);
        assert_eq!(anew.serve(1, &kept, NOTICE), NOTICE);
    }
}

#[test]
fn what_is_pending_outlives_the_night() {
    let mut book = late(1, 1);
    stamp(book.enter(line(7, 1), 180));
    let kept = book.page(7).expect("nothing is pending").into_bytes();
    refusal(book.enter(line(7, 1), 210));
    let saved = book.save().expect("a good store");
    let morning = Book::load(&saved).expect("a saved book");
    assert_eq!(morning, book);
    assert_eq!(morning.serve(7, &kept, NOTICE), NOTICE);
    let half = Saved { image: saved.image[..saved.image.len() / 2].to_vec(), ..saved };
    assert!(Book::load(&half).expect_err("half an image").is(Number::Cut));
}

#[test]
fn what_is_saved_has_bytes_and_each_fault_its_offset() {
    let mut book = late(1, 0);
    refusal(book.enter(line(1, 1), 180));
    refusal(book.withdraw(line(7, 1)));
    let saved = book.save().expect("a good store");
    let bytes = saved.to_bytes();
    assert_eq!(bytes[..10], [1, 33, 0xB4, 1, 4, 2, 0xE1, 1, 4, 0]);
    assert_eq!(Saved::read(&bytes), Ok(saved));
    (0..10).for_each(|end| assert!(matches!(Saved::read(&bytes[..end]), Err(SavedFault::Cut(_)))));
    assert!(Saved::read(&bytes[..11]).is_ok_and(|cut| Book::load(&cut).is_err()));
    assert_eq!(Saved::read(&[3]), Err(SavedFault::Step(0)));
    assert_eq!(Saved::read(&[1, 0x80, 0]), Err(SavedFault::Number(1)));
    assert_eq!(Saved::read(&[2, 9, 1]), Err(SavedFault::Refusal(2)));
    assert_eq!(SavedFault::Refusal(2).to_string(), "offset 2: no refusal has this number");
}

#[test]
fn an_accepted_entry_ends_what_was_pending_for_its_line() {
    let mut book = full(1);
    let wanted = book.pending()[0].line;
    let image = Store::fresh(1).expect("plan 1").save_to_vec().expect("a good store");
    let mut other = Book::load(&Saved { image, pending: book.pending().to_vec() }).expect("an image");
    stamp(other.enter(wanted, 9));
    assert_eq!(other.pending().len(), 1);
    assert_eq!(other.retry(), 0);
    assert_eq!(other.look(wanted), Ok(Current::Held(Look::Result { value: 9, stamp: Stamp(1) })));
    assert_eq!(book.retry(), 2, "a full store stays full");
}

#[test]
fn older_copies_take_room_until_entered_anew() {
    let mut book = Book::fresh(1).expect("plan 1");
    (0..112).for_each(|key| assert_eq!(stamp(book.enter(Line::of_key(key), 1)), key + 1));
    let last = book.store().nodes().last().expect("a node");
    let amended: Vec<Line> = last.copies().map(|copy| copy.line).collect();
    let accepted =
        amended.iter().take_while(|&&line| matches!(book.enter(line, 2), Taken::Entered(_))).count();
    let lines = book.store().lines().expect("a good store").len();
    assert_eq!((accepted, book.store().copies(), lines), (8, 120, 112));
    assert_eq!(refusal(book.enter(Line::of_key(112), 1)), Number::Full);
    let anew = book.anew(1).expect("plan 1");
    assert_eq!((anew.pending().len(), anew.store().copies()), (0, 113));
    let value = |line| anew.store().look(line).expect("a good store").value();
    assert!(amended.iter().take(9).all(|&line| value(line) == Some(2)));
    assert_eq!((value(amended[9]), value(Line::of_key(112))), (Some(1), Some(1)));
}

#[test]
fn a_shelf_has_a_book_for_each_range() {
    let mut shelf = Shelf::new(1, NonZeroU32::new(10).expect("not 0")).expect("plan 1");
    assert_eq!(shelf.look(line(LAST_SAMPLE, 31)), Ok(Current::Held(Look::Never)));
    for sample in [0, 9, 10, LAST_SAMPLE] {
        assert_eq!(stamp(shelf.enter(line(sample, 1), sample)), if sample == 9 { 2 } else { 1 });
    }
    assert_eq!(shelf.books().map(|(number, _)| number).collect::<Vec<u32>>(), [0, 1, 13_421_772]);
    let (number, saved) = shelf.save().expect("good stores").swap_remove(1);
    assert_eq!(shelf.load(number + 1, &saved), Err(NoBook::Misplaced(line(10, 1))));
    assert!(
        matches!(shelf.page(LAST_SAMPLE + 1), Err(NoPage::Refused(refusal)) if refusal.is(Number::Sample))
    );
    assert!(Shelf::new(4, NonZeroU32::MIN).expect_err("no plan 4").is(Number::Plan));
}

#[test]
fn a_full_book_leaves_the_other_books_of_a_shelf() {
    let mut shelf = Shelf::new(2, NonZeroU32::new(4).expect("not 0")).expect("plan 2");
    let taken: Vec<Taken> = (0..128).map(|key| shelf.enter(Line::of_key(key), key)).collect();
    assert_eq!(taken.iter().filter(|taken| matches!(taken, Taken::Entered(_))).count(), 40);
    assert_eq!(shelf.pending().count(), 88);
    assert_eq!(shelf.page(3), Err(NoPage::Pending(line(3, 0))));
    stamp(shelf.enter(line(4, 0), 1));
    assert!(shelf.page(4).is_ok());
}
