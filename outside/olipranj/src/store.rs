//! A store by typed calls.

use std::collections::BTreeSet;
use std::fmt;

use crate::nodes::{nodes, Node};
use crate::{
    sys, Answer, Carried, Entry, Line, Look, Page, Raw, Refusal, Stamp, Visit, LONGEST_IMAGE, LONGEST_PAGE,
};

/// A good store behind the proved library's calls.
///
/// A refused call leaves the store as it was. A fresh or a loaded store is always another one: `store =
/// Store::load(&image)?` changes nothing if the image is refused. Calls that leave the store alone may run at the same
/// time, one that alters it excludes all others; the compiler holds the caller to that. A library of another layout is
/// asked for nothing but its layout: there is no store then, only a refusal.
#[repr(transparent)]
#[derive(Clone, PartialEq, Eq)]
pub struct Store {
    raw: Raw,
}

impl Store {
    /// A fresh store of a plan, by its number from 1; else PLAN.
    pub fn fresh(plan: u32) -> Result<Store, Refusal> {
        sys::layout_fits()?;
        let mut raw = Raw::ZERO;
        raw.lay_fresh(plan).done().map(|_| Store { raw })
    }

    /// The store that an image holds, with no search running; else the image's first fault.
    pub fn load(image: &[u8]) -> Result<Store, Refusal> {
        sys::layout_fits()?;
        let mut raw = Raw::ZERO;
        raw.lay_image(image).done().map(|_| Store { raw })
    }

    /// The store of these numbers; else BADSTORE.
    pub fn from_raw(raw: Raw) -> Result<Store, Refusal> {
        sys::layout_fits()?;
        raw.good().done().map(|_| Store { raw })
    }

    /// The store's numbers, with the plain numbered calls that leave it alone.
    pub const fn raw(&self) -> &Raw {
        &self.raw
    }

    /// Enters a result: its stamp; or CLOCK, or FULL (then carry and enter again, as [`Book`](crate::Book) does).
    pub fn enter(&mut self, line: Line, value: u32) -> Result<Stamp, Refusal> {
        self.raw.enter(line.key(), value).stamp()
    }

    /// Withdraws a line: the stamp; or CLOCK, or FULL.
    pub fn withdraw(&mut self, line: Line) -> Result<Stamp, Refusal> {
        self.raw.withdraw(line.key()).stamp()
    }

    /// Enters a result or withdraws.
    pub fn take(&mut self, line: Line, entry: Entry) -> Result<Stamp, Refusal> {
        match entry {
            Entry::Result(value) => self.enter(line, value),
            Entry::Withdrawn => self.withdraw(line),
        }
    }

    /// Carries a node's copies along one of its edges; or NODE, or EDGE.
    pub fn carry(&mut self, node: u32, edge: u32) -> Result<Carried, Refusal> {
        self.raw.carry(node, edge).carried()
    }

    /// Starts a search in the lowest idle slot: the slot; or SLOTS.
    pub fn start(&mut self, line: Line) -> Result<u32, Refusal> {
        self.raw.start(line.key()).first()
    }

    /// Lets a slot's search visit one node; or SLOT, or IDLE.
    pub fn step(&mut self, slot: u32) -> Result<Visit, Refusal> {
        self.raw.step(slot).visit()
    }

    /// Ends a slot's search; or SLOT, or IDLE.
    pub fn cancel(&mut self, slot: u32) -> Result<(), Refusal> {
        self.raw.cancel(slot).done().map(|_| ())
    }

    /// A whole search at once.
    pub fn look(&self, line: Line) -> Result<Look, Refusal> {
        self.raw.look(line.key()).look()
    }

    /// Writes the store's image at the buffer's beginning: its length; or SMALL, and the buffer as it was.
    pub fn save(&self, buffer: &mut [u8]) -> Result<usize, Refusal> {
        self.raw.save(buffer).length()
    }

    /// The store's image.
    pub fn save_to_vec(&self) -> Result<Vec<u8>, Refusal> {
        written(LONGEST_IMAGE, |buffer| self.raw.save(buffer))
    }

    /// The sample's page; or SAMPLE.
    pub fn page(&self, sample: u32) -> Result<Page, Refusal> {
        written(LONGEST_PAGE, |buffer| self.raw.page(sample, buffer)).map(Page::new)
    }

    /// The kept bytes' beginning, if it is the sample's page as it is now; nothing: the notice is due.
    #[must_use = "nothing: the notice is due"]
    pub fn still_true<'a>(&self, sample: u32, kept: &'a [u8]) -> Option<&'a [u8]> {
        let length = self.raw.true_bytes(sample, kept);
        kept.get(..length).filter(|page| !page.is_empty())
    }

    /// The kept page's own bytes if they begin with the sample's page as it is now, else the whole notice.
    #[must_use]
    pub fn serve<'a>(&self, sample: u32, kept: &'a [u8], notice: &'a [u8]) -> &'a [u8] {
        self.still_true(sample, kept).unwrap_or(notice)
    }

    /// The number of the store's plan.
    pub const fn plan(&self) -> u32 {
        self.raw.plan
    }

    /// The store's clock: the stamp of the next entry.
    pub const fn clock(&self) -> u32 {
        self.raw.clock
    }

    /// How many copies the store holds.
    pub fn copies(&self) -> usize {
        self.nodes().map(|node| node.copies().count()).sum()
    }

    /// The store's nodes, the root first.
    pub fn nodes(&self) -> impl Iterator<Item = Node<'_>> {
        nodes(&self.raw)
    }

    /// The lines that the store holds a copy of, rising, each with its look.
    pub fn lines(&self) -> Result<Vec<(Line, Look)>, Refusal> {
        let held: BTreeSet<Line> =
            self.nodes().flat_map(|node| node.copies()).map(|copy| copy.line).collect();
        held.into_iter().map(|line| Ok((line, self.look(line)?))).collect()
    }
}

impl fmt::Debug for Store {
    fn fmt(&self, f: &mut fmt::Formatter<'_>) -> fmt::Result {
        self.raw.debug("Store", f)
    }
}

/// What a call writes into a buffer of the most bytes that it may need.
fn written(most: usize, call: impl FnOnce(&mut [u8]) -> Answer) -> Result<Vec<u8>, Refusal> {
    let mut buffer = vec![0; most];
    let length = call(&mut buffer).length()?;
    buffer.truncate(length);
    Ok(buffer)
}
