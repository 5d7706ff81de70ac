//! Calls and their results written to a file, for `replay.c` to make and check once more.
//!
//! The file is a run of little-endian 32-bit words and bytes. A call: its code (0 fresh, 1 step, 2 look, 3 save,
//! 4 load, 5 page, 6 serve, 7 lay down a store, 8 good), three numbers, the buffer's length, its bytes before and
//! after, the answer (number, then a to d as two words each, the lower first), and the store after: how many words
//! changed, and for each its place and its new value.

use std::fs::File;
use std::io::{BufWriter, Write};
use std::path::Path;

use crate::calls::{to_raw, words, Call};

/// A file of calls being written.
pub struct Record {
    file: BufWriter<File>,
    last: Vec<u32>,
}

impl Record {
    pub fn create(path: &Path) -> std::io::Result<Record> {
        let zero = words(&olipranj::Raw::ZERO);
        Ok(Record { file: BufWriter::new(File::create(path)?), last: zero })
    }

    /// A store laid down.
    pub fn put(&mut self, store: &model::Store) {
        self.numbers(&[7, 0, 0, 0, 0]);
        self.numbers(&[0; 9]);
        self.store(store);
    }

    /// A call with its answer, its buffer after it and the store after it.
    pub fn call(&mut self, call: &Call, answer: &olipranj::Answer, after: &[u8], store: &model::Store) {
        let empty = Vec::new();
        let (head, before) = match call {
            Call::Fresh(plan) => ([0, *plan, 0, 0], &empty),
            Call::Step(number, x, y) => ([1, *number, *x, *y], &empty),
            Call::Good => ([8, 0, 0, 0], &empty),
            Call::Look(key) => ([2, *key, 0, 0], &empty),
            Call::Save(bytes) => ([3, 0, 0, 0], bytes),
            Call::Load(bytes) => ([4, 0, 0, 0], bytes),
            Call::Page(sample, bytes) => ([5, *sample, 0, 0], bytes),
            Call::Serve(sample, bytes) => ([6, *sample, 0, 0], bytes),
        };
        self.numbers(&head);
        self.numbers(&[before.len() as u32]);
        self.bytes(before);
        self.bytes(after);
        self.numbers(&[answer.number]);
        for wide in [answer.a, answer.b, answer.c, answer.d] {
            self.numbers(&[wide as u32, (wide >> 32) as u32]);
        }
        self.store(store);
    }

    fn store(&mut self, store: &model::Store) {
        let now = words(&to_raw(store));
        let changed: Vec<usize> = (0..now.len()).filter(|&at| now[at] != self.last[at]).collect();
        self.numbers(&[changed.len() as u32]);
        for at in changed {
            self.numbers(&[at as u32, now[at]]);
        }
        self.last = now;
    }

    fn numbers(&mut self, numbers: &[u32]) {
        for number in numbers {
            self.bytes(&number.to_le_bytes());
        }
    }

    fn bytes(&mut self, bytes: &[u8]) {
        self.file.write_all(bytes).expect("the file of calls can be written");
    }
}
