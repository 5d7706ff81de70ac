//! A store that takes entries, with those that it could not take.

use std::fmt;

use crate::{habit, Entry, Line, Look, Pending, Refusal, Saved, Stamp, Store, Taken};

/// A store, and the entries that it could not take: they are pending.
///
/// When the root is full, copies are carried down first. An entry that is refused all the same (FULL, CLOCK) is kept,
/// the last one of each line. While a sample has an entry pending, the store still holds the old figure, and the kept
/// page is still true to the store: so the book gives no page of that sample, and the notice is due.
///
/// What the store does is proved; what the book does is tested.
#[derive(Clone, PartialEq, Eq)]
pub struct Book {
    store: Store,
    pending: Vec<Pending>,
}

impl Book {
    /// A book of a store, with nothing pending.
    pub const fn new(store: Store) -> Book {
        Book { store, pending: Vec::new() }
    }

    /// A book of a fresh store; or PLAN.
    pub fn fresh(plan: u32) -> Result<Book, Refusal> {
        Store::fresh(plan).map(Book::new)
    }

    /// The book that was saved; or the image's first fault. Of two entries pending for one line the later one counts.
    pub fn load(saved: &Saved) -> Result<Book, Refusal> {
        let mut book = Book::new(Store::load(&saved.image)?);
        saved.pending.iter().for_each(|&pending| book.keep(pending));
        Ok(book)
    }

    /// What is to be kept overnight. The image alone would lose what is pending.
    pub fn save(&self) -> Result<Saved, Refusal> {
        Ok(Saved { image: self.store.save_to_vec()?, pending: self.pending.clone() })
    }

    /// The book's store, to read. It holds older figures for the lines that have an entry pending.
    pub const fn store(&self) -> &Store {
        &self.store
    }

    /// What is pending, each line once, in the order of the refusals.
    pub fn pending(&self) -> &[Pending] {
        &self.pending
    }

    /// Enters a result, and carries first if the root is full.
    pub fn enter(&mut self, line: Line, value: u32) -> Taken {
        self.take(line, Entry::Result(value))
    }

    /// Withdraws a line, and carries first if the root is full.
    pub fn withdraw(&mut self, line: Line) -> Taken {
        self.take(line, Entry::Withdrawn)
    }

    /// Enters or withdraws. What was pending for the line is older, and is pending no more.
    pub fn take(&mut self, line: Line, entry: Entry) -> Taken {
        match habit::take(&mut self.store, line, entry) {
            Ok(stamp) => {
                self.pending.retain(|pending| pending.line != line);
                Taken::Entered(stamp)
            }
            Err(refusal) => {
                self.keep(Pending { line, entry, refusal });
                Taken::Pending(refusal)
            }
        }
    }

    /// Keeps a refused entry, for what was pending for its line.
    pub(crate) fn keep(&mut self, refused: Pending) {
        self.pending.retain(|pending| pending.line != refused.line);
        self.pending.push(refused);
    }

    /// Tries once more what is pending, and gives how many entries still are.
    #[must_use = "entries may still be pending"]
    pub fn retry(&mut self) -> usize {
        for Pending { line, entry, .. } in self.pending.clone() {
            let _: Taken = self.take(line, entry);
        }
        self.pending.len()
    }

    /// A book of a fresh store of the plan, into which each line's last entry is entered anew: first those that this
    /// store holds, by rising stamp, then what is pending. What finds no room there either is pending there.
    ///
    /// It helps when this store is full of copies that are no line's current one, or the clock has its last value.
    /// Every entry gets a stamp of the fresh store, so kept pages are to be made anew. This book stays as it is.
    pub fn anew(&self, plan: u32) -> Result<Book, Refusal> {
        let mut book = Book::fresh(plan)?;
        let pending = self.pending.iter().map(|pending| (pending.line, pending.entry));
        for (line, entry) in self.current()?.into_iter().chain(pending) {
            let _: Taken = book.take(line, entry);
        }
        Ok(book)
    }

    /// What the store holds for the lines that have nothing pending, by rising stamp.
    fn current(&self) -> Result<Vec<(Line, Entry)>, Refusal> {
        let mut found: Vec<(Stamp, Line, Entry)> = Vec::new();
        for (line, look) in self.store.lines()? {
            match look {
                _ if self.pending.iter().any(|pending| pending.line == line) => {}
                Look::Never => {}
                Look::Withdrawn(stamp) => found.push((stamp, line, Entry::Withdrawn)),
                Look::Result { value, stamp } => found.push((stamp, line, Entry::Result(value))),
            }
        }
        found.sort_unstable_by_key(|&(stamp, ..)| stamp);
        Ok(found.into_iter().map(|(_, line, entry)| (line, entry)).collect())
    }
}

/// How many copies the store holds, and how many entries are pending.
impl fmt::Debug for Book {
    fn fmt(&self, f: &mut fmt::Formatter<'_>) -> fmt::Result {
        let mut debug = f.debug_struct("Book");
        debug.field("copies", &self.store.copies()).field("pending", &self.pending.len()).finish()
    }
}
