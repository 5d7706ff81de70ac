//! What is to be kept overnight, and its bytes.

use std::error::Error;
use std::fmt;

use crate::number::{self, Unread};
use crate::{Answer, Entry, Line, Number, Pending, Refusal};

/// The numbers of document 01's steps; 0, which is none, ends the list.
const END: u32 = 0;
const ENTER: u32 = 1;
const WITHDRAW: u32 = 2;

/// A book as it is kept overnight: its store's image, and what is pending.
#[must_use]
#[derive(Clone, PartialEq, Eq)]
#[allow(missing_docs)]
pub struct Saved {
    pub image: Vec<u8>,
    pub pending: Vec<Pending>,
}

/// Why bytes are no saved book, and where: the offset of the number at fault.
#[derive(Clone, Copy, Debug, PartialEq, Eq)]
#[allow(missing_docs)]
pub enum SavedFault {
    Cut(usize),
    Number(usize),
    Step(usize),
    Refusal(usize),
}

impl Saved {
    /// One run of bytes for both: each entry pending as a schedule has it (1 key value, or 2 key) and the number of its
    /// refusal, then 0, then the image. They have no checksum: a file around them needs one.
    pub fn to_bytes(&self) -> Vec<u8> {
        let mut bytes = Vec::new();
        for pending in &self.pending {
            let numbers = match pending.entry {
                Entry::Result(value) => vec![ENTER, pending.line.key(), value],
                Entry::Withdrawn => vec![WITHDRAW, pending.line.key()],
            };
            let refusal = pending.refusal.answer().number;
            numbers.into_iter().chain([refusal]).for_each(|number| number::write(&mut bytes, number));
        }
        number::write(&mut bytes, END);
        bytes.extend_from_slice(&self.image);
        bytes
    }

    /// Reads what [`Saved::to_bytes`] wrote. The image is judged when it is loaded.
    pub fn read(bytes: &[u8]) -> Result<Saved, SavedFault> {
        let mut reader = Reader { bytes, at: 0 };
        let mut pending = Vec::new();
        while let Some(entry) = reader.pending()? {
            pending.push(entry);
        }
        Ok(Saved { image: bytes.get(reader.at..).unwrap_or(&[]).to_vec(), pending })
    }
}

struct Reader<'a> {
    bytes: &'a [u8],
    at: usize,
}

impl Reader<'_> {
    fn number(&mut self) -> Result<u32, SavedFault> {
        let (number, length) =
            number::read(self.bytes.get(self.at..).unwrap_or(&[])).map_err(|unread| match unread {
                Unread::Cut => SavedFault::Cut(self.at),
                Unread::Number => SavedFault::Number(self.at),
            })?;
        self.at += length;
        Ok(number)
    }

    /// The next entry; nothing at the list's end.
    fn pending(&mut self) -> Result<Option<Pending>, SavedFault> {
        let begin = self.at;
        let step = self.number()?;
        if step == END {
            return Ok(None);
        }
        if step != ENTER && step != WITHDRAW {
            return Err(SavedFault::Step(begin));
        }
        let line = Line::of_key(self.number()?);
        let entry = if step == ENTER { Entry::Result(self.number()?) } else { Entry::Withdrawn };
        Ok(Some(Pending { line, entry, refusal: self.refusal()? }))
    }

    fn refusal(&mut self) -> Result<Refusal, SavedFault> {
        let begin = self.at;
        let number = self.number()?;
        match Number::of(number) {
            None | Some(Number::Done | Number::Going) => Err(SavedFault::Refusal(begin)),
            Some(_) => Ok(Refusal::of(Answer { number, a: 0, b: 0, c: 0, d: 0 })),
        }
    }
}

/// How many bytes the image has, and how many entries are pending.
impl fmt::Debug for Saved {
    fn fmt(&self, f: &mut fmt::Formatter<'_>) -> fmt::Result {
        let mut debug = f.debug_struct("Saved");
        debug.field("image", &self.image.len()).field("pending", &self.pending.len()).finish()
    }
}

impl fmt::Display for SavedFault {
    fn fmt(&self, f: &mut fmt::Formatter<'_>) -> fmt::Result {
        let (what, offset) = match self {
            SavedFault::Cut(offset) => ("the bytes end before a number or inside it", offset),
            SavedFault::Number(offset) => {
                ("a number is not in its shortest form, or is above 32 bits", offset)
            }
            SavedFault::Step(offset) => ("what is pending is no entry", offset),
            SavedFault::Refusal(offset) => ("no refusal has this number", offset),
        };
        write!(f, "offset {offset}: {what}")
    }
}

impl Error for SavedFault {}
