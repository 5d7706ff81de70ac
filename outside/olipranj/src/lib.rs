//! Safe calls of Olipranj's proved library.
//!
//! A [`Store`] holds results by line. Results are entered at the small root ([`Store::enter`]), copies are
//! carried down to larger nodes ([`Store::carry`]), a search finds a line's current result ([`Store::look`], or node
//! by node with [`Store::start`] and [`Store::step`]). [`Store::page`] makes a household's page, and [`Store::serve`]
//! shows a kept page only while it is still true.
//!
//! A store may refuse an entry (FULL, CLOCK). Then it goes on with the old figure, and the kept page is still true to
//! the store: until the entry is accepted, the portal must show the notice. A [`Book`] is a store that has this built
//! in, and carries when the root is full. A [`Shelf`] is many books, by ranges of samples.
//!
//! Every call ends with its result or a [`Refusal`], asks nothing of its numbers and bytes, and panics for none. A
//! refused call leaves the store and the buffer as they were. That is proved of the library's calls; what this crate
//! adds to them, books and shelves among it, is not proved, but tested. Below are the plain numbered calls, those of
//! [`Raw`], with an [`Answer`] each: they only pass numbers, pointers and lengths on.
//!
//! ```
//! use olipranj::{Book, Line, Taken};
//! let mut book = Book::fresh(1)?;
//! let hardness = Line::new(7, 1)?;
//! if let Taken::Pending(refusal) = book.enter(hardness, 180) {
//!     println!("not entered yet: {refusal}");
//! }
//! let kept = book.page(7)?.into_bytes();
//! assert_eq!(book.serve(7, &kept, b"the notice"), kept);
//! # Ok::<(), Box<dyn std::error::Error>>(())
//! ```

#![warn(missing_docs)]

mod answer;
mod book;
mod capacities;
mod habit;
mod layout;
mod line;
mod nodes;
mod number;
mod page;
mod pending;
mod plain;
mod refusal;
mod saved;
mod shelf;
mod showing;
mod store;
mod sys;
mod typed;

pub use answer::{Answer, Number};
pub use book::Book;
pub use capacities::{capacities, most_copies};
pub use layout::{Raw, Slot, NODES, NODE_PLACES, PLACES, SLOTS};
pub use line::{Entry, Line, NoLine, ANALYTES, LAST_SAMPLE};
pub use nodes::{Held, Node};
pub use page::{Page, PageFault, PageLine, PageLines};
pub use pending::{Current, NoPage, Pending, Taken};
pub use refusal::Refusal;
pub use saved::{Saved, SavedFault};
pub use shelf::{NoBook, Shelf};
pub use store::Store;
pub use typed::{Carried, Look, Stamp, Visit};

/// A page takes at most so many bytes.
pub const LONGEST_PAGE: usize = 357;
/// An image takes at most so many bytes: format, plan, clock, four counts, and 120 copies of at most 16 bytes.
pub const LONGEST_IMAGE: usize = 2 + 5 + 4 + 120 * 16;
