//! A book once more, on the model's store: what is entered, what is pending, what may be shown.

use std::collections::{BTreeMap, BTreeSet};

use model::{Answer, Number, Plan, Store};
use olipranj::{Book, Current, Entry, Line, Look, NoPage, Page, PageLine, PageLines, Refusal, Shelf, Taken};

use crate::calls::{to_answer, to_raw, Difference};
use crate::stores::used;

/// The model's store, what it refused, and each line's last entry, entered or refused.
#[derive(Clone)]
pub struct Mirror {
    pub store: Store,
    pub pending: BTreeMap<u32, Entry>,
    pub wanted: BTreeMap<u32, Entry>,
}

/// What shows pages: a book or a shelf.
pub trait Shows {
    fn look(&self, line: Line) -> Result<Current, Refusal>;
    fn page(&self, sample: u32) -> Result<Page, NoPage>;
    fn still_true<'a>(&self, sample: u32, kept: &'a [u8]) -> Option<&'a [u8]>;
}

macro_rules! shows {
    ($type:ty) => {
        impl Shows for $type {
            fn look(&self, line: Line) -> Result<Current, Refusal> {
                self.look(line)
            }
            fn page(&self, sample: u32) -> Result<Page, NoPage> {
                self.page(sample)
            }
            fn still_true<'a>(&self, sample: u32, kept: &'a [u8]) -> Option<&'a [u8]> {
                self.still_true(sample, kept)
            }
        }
    };
}

shows!(Book);
shows!(Shelf);

/// A difference with what both sides say, if they say different things.
pub fn same<T: PartialEq + std::fmt::Debug>(what: &str, model: &T, library: &T) -> Result<(), Difference> {
    if model == library {
        return Ok(());
    }
    Err(Difference::new(format!("{what}\n  model   {model:?}\n  library {library:?}")))
}

impl Mirror {
    pub fn new(store: Store) -> Mirror {
        let keys: BTreeSet<u32> = used(&store).into_iter().map(|place| store.keys[place]).collect();
        let entry = |answer: Answer| match answer.a {
            2 => Entry::Result(answer.b as u32),
            _ => Entry::Withdrawn,
        };
        let wanted = keys.into_iter().map(|key| (key, entry(model::look(&store, key)))).collect();
        Mirror { store, pending: BTreeMap::new(), wanted }
    }

    /// Takes an entry, and carries as long as the root is full and a carry moves a copy.
    pub fn take(&mut self, key: u32, entry: Entry) -> Answer {
        let mut answer = enter(&mut self.store, key, entry);
        while answer.number == Number::Full as u32 && carry_all(&mut self.store) {
            answer = enter(&mut self.store, key, entry);
        }
        self.wanted.insert(key, entry);
        self.pending.remove(&key);
        if !answer.is_done() {
            self.pending.insert(key, entry);
        }
        answer
    }

    /// Whether the last node of each path has room for all its lines: then no entry may find the store full.
    pub fn fits(&self) -> bool {
        let plan = Plan::numbered(self.store.plan).expect("a plan of the table");
        let mut lines = vec![0; plan.nodes()];
        for &key in self.wanted.keys() {
            let mut node = 0;
            while let Some(next) = plan.next(node, key) {
                node = next;
            }
            lines[node] += 1;
        }
        lines.iter().zip(plan.capacities).all(|(lines, capacity)| lines <= capacity)
    }

    /// Both sides took an entry the same way, and FULL is not said of a store with room.
    pub fn took(&self, answer: Answer, taken: Taken) -> Result<(), Difference> {
        let expected = if answer.is_done() { Ok(answer.a as u32) } else { Err(to_answer(answer)) };
        let given = match taken {
            Taken::Entered(stamp) => Ok(stamp.0),
            Taken::Pending(refusal) => Err(refusal.answer()),
        };
        same("an entry", &expected, &given)?;
        same("FULL though the lines fit", &false, &(answer.number == Number::Full as u32 && self.fits()))
    }

    /// The book holds the same store and the same is pending.
    pub fn holds(&self, book: &Book) -> Result<(), Difference> {
        same("the store", &to_raw(&self.store), book.store().raw())?;
        let pending = book.pending().iter().map(|pending| (pending.line.key(), pending.entry)).collect();
        same("what is pending", &self.pending, &pending)
    }

    /// A line's look, with what is pending first.
    pub fn look(&self, key: u32, shows: &impl Shows) -> Result<(), Difference> {
        let answer = model::look(&self.store, key);
        let stamp = olipranj::Stamp(answer.c as u32);
        let held = match answer.a {
            0 => Look::Never,
            1 => Look::Withdrawn(stamp),
            _ => Look::Result { value: answer.b as u32, stamp },
        };
        let expected = self.pending.get(&key).map_or(Current::Held(held), |&entry| Current::Pending(entry));
        same("a look", &Ok(expected), &shows.look(Line::of_key(key)))
    }

    /// A page is made and a kept one shown exactly if nothing of the sample is pending; what is shown is each line's
    /// last entry. Gives the page made.
    pub fn shown(&self, sample: u32, kept: &[u8], shows: &impl Shows) -> Result<Vec<u8>, Difference> {
        let pending = self.pending.keys().any(|key| key / 32 == sample);
        let length = if pending { 0 } else { model::serve(&self.store, sample, kept) };
        let shown = shows.still_true(sample, kept);
        same("a kept page", &(length > 0).then(|| &kept[..length]), &shown)?;
        if let Some(shown) = shown {
            same("what is shown", &self.figures(sample), &figures(shown)?)?;
        }
        let page = match shows.page(sample) {
            Ok(page) => page.into_bytes(),
            Err(refusal) => {
                same("why no page", &pending, &matches!(refusal, NoPage::Pending(_)))?;
                return Ok(Vec::new());
            }
        };
        same("a page though pending", &false, &pending)?;
        same("what a page shows", &self.figures(sample), &figures(&page)?)?;
        Ok(page)
    }

    /// The lines of the sample whose last entry is a result.
    fn figures(&self, sample: u32) -> Vec<(u32, u32)> {
        let of_sample = self.wanted.iter().filter(|(key, _)| **key / 32 == sample);
        of_sample
            .filter_map(|(&key, &entry)| match entry {
                Entry::Result(value) => Some((key, value)),
                Entry::Withdrawn => None,
            })
            .collect()
    }
}

/// The lines of a page.
fn figures(page: &[u8]) -> Result<Vec<(u32, u32)>, Difference> {
    let fault = |fault| Difference::new(format!("a page that cannot be read: {fault}"));
    let lines: Result<Vec<PageLine>, _> = PageLines::read(page).map_err(fault)?.collect();
    Ok(lines.map_err(fault)?.iter().map(|line| (line.line.key(), line.value)).collect())
}

fn enter(store: &mut Store, key: u32, entry: Entry) -> Answer {
    match entry {
        Entry::Result(value) => model::enter(store, key, value),
        Entry::Withdrawn => model::withdraw(store, key),
    }
}

/// Carries along all edges, the last node's first; whether a copy moved.
fn carry_all(store: &mut Store) -> bool {
    let plan = Plan::numbered(store.plan).expect("a plan of the table");
    let mut moved = 0;
    for node in (0..plan.nodes()).rev() {
        for edge in 0..plan.edges[node].len() {
            moved += model::carry(store, node as u32, edge as u32).a;
        }
    }
    moved > 0
}
