//! The portal's day on SQLite, in memory, by prepared statements.

use std::ffi::{c_char, c_int, c_void, CStr};
use std::ptr::{null, null_mut};

use crate::databases::{compare_page, write_page, Line};
use crate::dynamic::Library;
use crate::portals::Portal;

type Pointer = *mut c_void;

/// The few functions of SQLite's C interface that are used.
struct Functions {
    exec: unsafe extern "C" fn(Pointer, *const c_char, *const c_void, *const c_void, *const c_void) -> c_int,
    prepare: unsafe extern "C" fn(Pointer, *const c_char, c_int, *mut Pointer, *const c_void) -> c_int,
    bind: unsafe extern "C" fn(Pointer, c_int, i64) -> c_int,
    step: unsafe extern "C" fn(Pointer) -> c_int,
    column: unsafe extern "C" fn(Pointer, c_int) -> i64,
    reset: unsafe extern "C" fn(Pointer) -> c_int,
    finalize: unsafe extern "C" fn(Pointer) -> c_int,
    close: unsafe extern "C" fn(Pointer) -> c_int,
}

/// A database in memory with one table.
pub struct Sqlite {
    functions: Functions,
    database: Pointer,
    insert: Pointer,
    select: Pointer,
    range: Pointer,
    clock: u32,
}

const ROW: c_int = 100;
const TABLE: &CStr = c"create table lines (key integer primary key, value integer, stamp integer)";
const INSERT: &CStr = c"insert or replace into lines values (?, ?, ?)";
const SELECT: &CStr = c"select value from lines where key = ?";
const RANGE: &CStr = c"select key, value, stamp from lines where key between ? and ? order by key";

impl Sqlite {
    /// An empty database; none if SQLite is not installed.
    pub fn open() -> Option<Sqlite> {
        let library = Library::open(&[c"libsqlite3.so.0", c"libsqlite3.so"])?;
        // SAFETY: the types are those of sqlite3.h; the database and its statements live until they are dropped.
        unsafe {
            let open: unsafe extern "C" fn(*const c_char, *mut Pointer) -> c_int =
                library.function(c"sqlite3_open");
            let functions = Functions {
                exec: library.function(c"sqlite3_exec"),
                prepare: library.function(c"sqlite3_prepare_v2"),
                bind: library.function(c"sqlite3_bind_int64"),
                step: library.function(c"sqlite3_step"),
                column: library.function(c"sqlite3_column_int64"),
                reset: library.function(c"sqlite3_reset"),
                finalize: library.function(c"sqlite3_finalize"),
                close: library.function(c"sqlite3_close"),
            };
            let mut database = null_mut();
            assert_eq!(open(c":memory:".as_ptr(), &mut database), 0);
            assert_eq!((functions.exec)(database, TABLE.as_ptr(), null(), null(), null()), 0);
            let [insert, select, range] = [INSERT, SELECT, RANGE].map(|text| {
                let mut statement = null_mut();
                assert_eq!((functions.prepare)(database, text.as_ptr(), -1, &mut statement, null()), 0);
                statement
            });
            Some(Sqlite { functions, database, insert, select, range, clock: 1 })
        }
    }

    /// Runs a statement with its numbers and hands each row's reader to a function.
    fn run(&self, statement: Pointer, numbers: &[u32], mut row: impl FnMut(&dyn Fn(c_int) -> u32)) {
        // SAFETY: the statement is one of this database's own, and columns are read only while a row stands.
        unsafe {
            for (at, &number) in numbers.iter().enumerate() {
                (self.functions.bind)(statement, at as c_int + 1, number.into());
            }
            while (self.functions.step)(statement) == ROW {
                row(&|column| (self.functions.column)(statement, column) as u32);
            }
            (self.functions.reset)(statement);
        }
    }
}

impl Portal for Sqlite {
    fn enter(&mut self, key: u32, value: u32) {
        self.run(self.insert, &[key, value, self.clock], |_| ());
        self.clock += 1;
    }

    fn look(&mut self, key: u32) -> Option<u32> {
        let mut found = None;
        self.run(self.select, &[key], |column| found = Some(column(0)));
        found
    }

    fn page(&mut self, sample: u32, buffer: &mut [u8]) -> usize {
        let mut lines = Vec::with_capacity(32);
        self.run(self.range, &[sample * 32, sample * 32 + 31], |column| {
            lines.push(Line { key: column(0), value: column(1), stamp: column(2) })
        });
        write_page(sample, &lines, buffer)
    }

    fn serve(&mut self, sample: u32, kept: &[u8]) -> usize {
        compare_page(kept, |buffer| self.page(sample, buffer))
    }
}

impl Drop for Sqlite {
    fn drop(&mut self) {
        // SAFETY: the statements and the database are open and are not used again.
        unsafe {
            for statement in [self.insert, self.select, self.range] {
                (self.functions.finalize)(statement);
            }
            (self.functions.close)(self.database);
        }
    }
}
