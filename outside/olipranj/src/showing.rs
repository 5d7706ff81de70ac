//! What a book shows: nothing of a sample that has an entry pending.

use crate::{Book, Current, Line, NoPage, Page, Refusal};

impl Book {
    /// What the line's last entry was, entered or pending.
    pub fn look(&self, line: Line) -> Result<Current, Refusal> {
        match self.pending().iter().find(|pending| pending.line == line) {
            Some(pending) => Ok(Current::Pending(pending.entry)),
            None => self.store().look(line).map(Current::Held),
        }
    }

    /// A line of the sample that has an entry pending, if there is one.
    pub fn pending_of(&self, sample: u32) -> Option<Line> {
        self.pending().iter().map(|pending| pending.line).find(|line| line.sample() == sample)
    }

    /// The sample's page, to keep; none while an entry is pending, or for a sample too large.
    pub fn page(&self, sample: u32) -> Result<Page, NoPage> {
        if let Some(line) = self.pending_of(sample) {
            return Err(NoPage::Pending(line));
        }
        self.store().page(sample).map_err(NoPage::Refused)
    }

    /// The kept bytes' beginning, if it is the sample's page as it is now and nothing of the sample is pending;
    /// nothing: the notice is due.
    #[must_use = "nothing: the notice is due"]
    pub fn still_true<'a>(&self, sample: u32, kept: &'a [u8]) -> Option<&'a [u8]> {
        if self.pending_of(sample).is_some() {
            return None;
        }
        self.store().still_true(sample, kept)
    }

    /// The bytes of [`Book::still_true`], else the whole notice.
    #[must_use]
    pub fn serve<'a>(&self, sample: u32, kept: &'a [u8], notice: &'a [u8]) -> &'a [u8] {
        self.still_true(sample, kept).unwrap_or(notice)
    }
}
