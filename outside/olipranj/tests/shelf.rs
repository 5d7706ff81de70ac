//! A shelf after a load that was refused.

use std::num::NonZeroU32;

use olipranj::*;

const NOTICE: &[u8] = b"the notice";

fn line(sample: u32) -> Line {
    Line::new(sample, 1).expect("a line")
}

fn shelf() -> Shelf {
    Shelf::new(1, NonZeroU32::MIN.saturating_add(9)).expect("a plan of the table")
}

/// What a shelf with sample 7 saved, and the same cut.
fn evening() -> (Saved, Saved) {
    let mut shelf = shelf();
    assert!(matches!(shelf.enter(line(7), 180), Taken::Entered(_)));
    let (number, saved) = shelf.save().expect("good stores").remove(0);
    assert_eq!(number, 0);
    (saved.clone(), Saved { image: saved.image[..5].to_vec(), ..saved })
}

#[test]
fn no_fresh_book_takes_the_place_of_a_refused_one() {
    let empty = shelf().page(7).expect("a page").into_bytes();
    let (saved, cut) = evening();
    let mut shelf = shelf();
    assert!(matches!(shelf.load(0, &cut), Err(NoBook::Refused(_))));
    assert_eq!(shelf.serve(7, &empty, NOTICE), NOTICE);
    let refusal = shelf.look(line(7)).expect_err("nobody knows");
    assert_eq!(refusal.to_string(), "the load of the sample's book was refused");
    assert_eq!((refusal.name(), shelf.page(7)), (None, Err(NoPage::Refused(refusal))));
    assert_eq!(shelf.enter(line(8), 5), Taken::Pending(refusal));
    assert_eq!(shelf.enter(line(8), 6), Taken::Pending(refusal));
    assert_eq!(shelf.look(line(8)), Ok(Current::Pending(Entry::Result(6))));
    assert!(matches!(shelf.enter(line(10), 7), Taken::Entered(_)));
    let numbers: Vec<u32> = shelf.save().expect("good stores").iter().map(|(number, _)| *number).collect();
    assert_eq!(numbers, [1]);
    let waiting = Pending { line: line(8), entry: Entry::Result(6), refusal };
    assert_eq!(shelf.refused().collect::<Vec<_>>(), [(0, &[waiting][..])]);
    assert_eq!(format!("{shelf:?}"), "Shelf { samples: 10, books: 1, refused: 1, pending: 1 }");
    assert!(shelf.load(0, &saved).is_ok());
    assert_eq!(shelf.look(line(7)), Ok(Current::Held(Look::Result { value: 180, stamp: Stamp(1) })));
    assert_eq!(shelf.look(line(8)), Ok(Current::Held(Look::Result { value: 6, stamp: Stamp(2) })));
    assert_eq!((shelf.refused().count(), shelf.pending().count()), (0, 0));
    assert_eq!(shelf.save().expect("good stores").len(), 2);
}

#[test]
fn a_book_that_is_there_goes_on() {
    let (saved, cut) = evening();
    let mut shelf = shelf();
    assert!(shelf.load(0, &saved).is_ok());
    let before = shelf.clone();
    assert!(shelf.load(0, &cut).is_err());
    shelf.refuse(0);
    assert_eq!(shelf, before);
    assert!(matches!(shelf.load(3, &saved), Err(NoBook::Misplaced(_))));
    assert_eq!(shelf.refused().map(|(number, _)| number).collect::<Vec<_>>(), [3]);
    shelf.refuse(4);
    assert!(matches!(shelf.withdraw(line(40)), Taken::Pending(_)));
    assert!(shelf.put(4, Book::fresh(1).expect("a plan of the table")).is_ok());
    assert_eq!(shelf.look(line(40)), Ok(Current::Held(Look::Withdrawn(Stamp(1)))));
}
