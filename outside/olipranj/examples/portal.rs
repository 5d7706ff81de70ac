//! A portal's day: results come in, pages are made and kept, a result is amended, and the kept page is shown no more,
//! not even when the amendment is refused. Then the same with a shelf, for many samples.

use std::error::Error;
use std::num::NonZeroU32;

use olipranj::{Book, Line, NoPage, Saved, Shelf, Taken};

const HARDNESS: u32 = 1;
const IRON: u32 = 2;
const NOTICE: &[u8] = b"This page is being made anew.";

fn main() -> Result<(), Box<dyn Error>> {
    let mut book = Book::fresh(1)?;
    for sample in 1..=20 {
        entered(book.enter(Line::new(sample, HARDNESS)?, 100 + sample));
        entered(book.enter(Line::new(sample, IRON)?, sample));
    }
    let kept = book.page(7)?.into_bytes();
    println!("page of sample 7, kept:   {kept:02X?}");
    assert_eq!(book.serve(7, &kept, NOTICE), kept);

    entered(book.enter(Line::new(7, HARDNESS)?, 210));
    let shown = book.serve(7, &kept, NOTICE);
    println!("amended; shown for it:    {}", String::from_utf8_lossy(shown));
    assert_eq!(shown, NOTICE);
    let page = book.page(7)?;
    for line in page.lines()? {
        let line = line?;
        println!("page of sample 7, anew:   line {} is {}, stamp {}", line.line, line.value, line.stamp);
    }

    let evening = book.save()?.to_bytes();
    println!("saved in {} bytes, {} entries pending", evening.len(), book.pending().len());
    let morning = Book::load(&Saved::read(&evening)?)?;
    assert_eq!(morning.serve(7, page.bytes(), NOTICE), page.bytes());
    refused(morning)?;
    shelf()
}

/// Says so if an entry is pending. What is pending is kept in the book, and saved with it.
fn entered(taken: Taken) -> bool {
    match taken {
        Taken::Entered(_) => true,
        Taken::Pending(refusal) => {
            println!("an entry is pending: {refusal}");
            false
        }
    }
}

/// Enters new lines until the store is full. An amendment is refused then: its sample shows the notice.
fn refused(mut book: Book) -> Result<(), Box<dyn Error>> {
    let mut sample = 100;
    while entered(book.enter(Line::new(sample, HARDNESS)?, 1)) {
        sample += 1;
    }
    let kept = book.page(7)?.into_bytes();
    entered(book.enter(Line::new(7, HARDNESS)?, 250));
    assert_eq!(book.page(7), Err(NoPage::Pending(Line::new(7, HARDNESS)?)));
    assert_eq!(book.serve(7, &kept, NOTICE), NOTICE);
    println!("{} copies held, {} pending: the notice", book.store().copies(), book.pending().len());
    Ok(())
}

/// Five thousand samples, ten to a book. Each book has an image of its own.
fn shelf() -> Result<(), Box<dyn Error>> {
    let mut shelf = Shelf::new(1, NonZeroU32::new(10).ok_or("no samples")?)?;
    for sample in 0..5000 {
        assert!(entered(shelf.enter(Line::new(sample, HARDNESS)?, 100 + sample % 100)));
        assert!(entered(shelf.enter(Line::new(sample, IRON)?, sample % 7)));
    }
    let kept = shelf.page(4321)?.into_bytes();
    let evening = shelf.save()?;
    let mut morning = Shelf::new(1, NonZeroU32::new(10).ok_or("no samples")?)?;
    for (number, saved) in &evening {
        morning.load(*number, saved)?;
    }
    assert_eq!(morning.serve(4321, &kept, NOTICE), kept);
    println!("a shelf of {} books saved and loaded", evening.len());
    Ok(())
}
