//! Many books, by ranges of samples.

use std::collections::BTreeMap;
use std::error::Error;
use std::fmt;
use std::num::NonZeroU32;

use crate::{Book, Current, Entry, Line, NoPage, Page, Pending, Refusal, Saved, Taken};

/// Books of as many samples each: book n has the samples from n times that number on.
///
/// A book is laid down with the first entry for one of its samples. Each has its own store and its own image. Plan 1
/// suits a shelf: the other plans lead the lower and the upper half of all lines to nodes of their own, and the lines
/// of one book are mostly in one half.
///
/// A book whose load was refused is not a book that never was: no fresh one takes its place. Until a good one is put at
/// its number, the notice is due for its samples, their entries are pending, and nothing of it is saved, so that the
/// file that could not be loaded stays as it is ([`Shelf::refused`] has the entries).
///
/// What the stores do is proved; what the shelf does is tested.
#[derive(Clone, PartialEq, Eq)]
pub struct Shelf {
    samples: NonZeroU32,
    /// What a book is at first; it answers for the samples of the books that are not there.
    first: Book,
    books: BTreeMap<u32, Book>,
    /// The books whose load was refused: only what is pending counts, not the store.
    refused: BTreeMap<u32, Book>,
}

/// Why a book was not taken into the shelf. The books that are there are as they were.
#[derive(Clone, Copy, Debug, PartialEq, Eq)]
pub enum NoBook {
    /// The book has a copy or an entry of this line, which belongs to another book.
    Misplaced(Line),
    /// The image was refused.
    Refused(Refusal),
}

impl Shelf {
    /// A shelf without books: the plan of their stores, and how many samples each has; or PLAN.
    pub fn new(plan: u32, samples: NonZeroU32) -> Result<Shelf, Refusal> {
        Ok(Shelf { samples, first: Book::fresh(plan)?, books: BTreeMap::new(), refused: BTreeMap::new() })
    }

    /// The number of the sample's book.
    pub const fn number(&self, sample: u32) -> u32 {
        sample / self.samples.get()
    }

    /// The sample's book; a refusal if its load was refused.
    pub fn book(&self, sample: u32) -> Result<&Book, Refusal> {
        let number = self.number(sample);
        if self.refused.contains_key(&number) {
            return Err(Refusal::no_book());
        }
        Ok(self.books.get(&number).unwrap_or(&self.first))
    }

    /// All books that are there, by rising number.
    pub fn books(&self) -> impl Iterator<Item = (u32, &Book)> {
        self.books.iter().map(|(&number, book)| (number, book))
    }

    /// The numbers whose load was refused, each with the entries that are pending there. They are not saved.
    pub fn refused(&self) -> impl Iterator<Item = (u32, &[Pending])> {
        self.refused.iter().map(|(&number, book)| (number, book.pending()))
    }

    /// Enters a result.
    pub fn enter(&mut self, line: Line, value: u32) -> Taken {
        self.take(line, Entry::Result(value))
    }

    /// Withdraws a line.
    pub fn withdraw(&mut self, line: Line) -> Taken {
        self.take(line, Entry::Withdrawn)
    }

    /// Enters or withdraws in the book of the line's sample, as [`Book::take`].
    pub fn take(&mut self, line: Line, entry: Entry) -> Taken {
        let number = self.number(line.sample());
        if let Some(book) = self.refused.get_mut(&number) {
            book.keep(Pending { line, entry, refusal: Refusal::no_book() });
            return Taken::Pending(Refusal::no_book());
        }
        self.books.entry(number).or_insert_with(|| self.first.clone()).take(line, entry)
    }

    /// What the line's last entry was, as [`Book::look`].
    pub fn look(&self, line: Line) -> Result<Current, Refusal> {
        let refused = self.refused.get(&self.number(line.sample()));
        match refused.and_then(|book| book.pending().iter().find(|pending| pending.line == line)) {
            Some(pending) => Ok(Current::Pending(pending.entry)),
            None => self.book(line.sample())?.look(line),
        }
    }

    /// The sample's page, as [`Book::page`].
    pub fn page(&self, sample: u32) -> Result<Page, NoPage> {
        self.book(sample).map_err(NoPage::Refused)?.page(sample)
    }

    /// The kept bytes' beginning, as [`Book::still_true`]; nothing: the notice is due.
    #[must_use = "nothing: the notice is due"]
    pub fn still_true<'a>(&self, sample: u32, kept: &'a [u8]) -> Option<&'a [u8]> {
        self.book(sample).ok()?.still_true(sample, kept)
    }

    /// The bytes of [`Shelf::still_true`], else the whole notice.
    #[must_use]
    pub fn serve<'a>(&self, sample: u32, kept: &'a [u8], notice: &'a [u8]) -> &'a [u8] {
        self.still_true(sample, kept).unwrap_or(notice)
    }

    /// What is pending in all books, and where a load was refused.
    pub fn pending(&self) -> impl Iterator<Item = &Pending> {
        self.books.values().chain(self.refused.values()).flat_map(|book| book.pending())
    }

    /// Puts a book at its number, for the one that was there, if all its lines belong there. It takes the entries that
    /// came since a load of the number was refused.
    pub fn put(&mut self, number: u32, mut book: Book) -> Result<(), NoBook> {
        let held = book.store().nodes().flat_map(|node| node.copies()).map(|copy| copy.line);
        let pending = book.pending().iter().map(|pending| pending.line);
        if let Some(line) = held.chain(pending).find(|line| self.number(line.sample()) != number) {
            return Err(NoBook::Misplaced(line));
        }
        let since = self.refused.remove(&number);
        for pending in since.iter().flat_map(|since| since.pending()) {
            let _: Taken = book.take(pending.line, pending.entry);
        }
        self.books.insert(number, book);
        Ok(())
    }

    /// What is to be kept overnight, book by book with its number; nothing for the numbers of [`Shelf::refused`].
    pub fn save(&self) -> Result<Vec<(u32, Saved)>, Refusal> {
        self.books().map(|(number, book)| Ok((number, book.save()?))).collect()
    }

    /// Puts a saved book at its number; refused, the one that was there goes on, or the number is refused.
    pub fn load(&mut self, number: u32, saved: &Saved) -> Result<(), NoBook> {
        let loaded = Book::load(saved).map_err(NoBook::Refused).and_then(|book| self.put(number, book));
        if loaded.is_err() {
            self.refuse(number);
        }
        loaded
    }

    /// As a refused load, for a file that cannot be read at all.
    pub fn refuse(&mut self, number: u32) {
        if !self.books.contains_key(&number) {
            self.refused.entry(number).or_insert_with(|| self.first.clone());
        }
    }
}

/// How many samples each book has, how many books there are and were refused, how many entries are pending.
impl fmt::Debug for Shelf {
    fn fmt(&self, f: &mut fmt::Formatter<'_>) -> fmt::Result {
        f.debug_struct("Shelf")
            .field("samples", &self.samples)
            .field("books", &self.books.len())
            .field("refused", &self.refused.len())
            .field("pending", &self.pending().count())
            .finish()
    }
}

impl fmt::Display for NoBook {
    fn fmt(&self, f: &mut fmt::Formatter<'_>) -> fmt::Result {
        match self {
            NoBook::Misplaced(line) => write!(f, "line {line} belongs to another book"),
            NoBook::Refused(refusal) => fmt::Display::fmt(refusal, f),
        }
    }
}

impl Error for NoBook {}
