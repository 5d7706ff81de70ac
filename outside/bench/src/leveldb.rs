//! The portal's day on LevelDB, in a folder of its own; writes are not synced. Its C interface has no database in memory.

use std::ffi::{c_char, c_uchar, c_void, CString};
use std::path::PathBuf;
use std::ptr::null_mut;

use crate::databases::{compare_page, write_page, Line};
use crate::dynamic::Library;
use crate::portals::Portal;

type Pointer = *mut c_void;
type Errors = *mut *mut c_char;

/// The few functions of LevelDB's C interface that are used.
struct Functions {
    put: unsafe extern "C" fn(Pointer, Pointer, *const u8, usize, *const u8, usize, Errors),
    get: unsafe extern "C" fn(Pointer, Pointer, *const u8, usize, *mut usize, Errors) -> *mut u8,
    free: unsafe extern "C" fn(*mut u8),
    iterator: unsafe extern "C" fn(Pointer, Pointer) -> Pointer,
    seek: unsafe extern "C" fn(Pointer, *const u8, usize),
    valid: unsafe extern "C" fn(Pointer) -> c_uchar,
    next: unsafe extern "C" fn(Pointer),
    key: unsafe extern "C" fn(Pointer, *mut usize) -> *const u8,
    value: unsafe extern "C" fn(Pointer, *mut usize) -> *const u8,
    destroy: unsafe extern "C" fn(Pointer),
    close: unsafe extern "C" fn(Pointer),
}

/// A database in a folder that goes with it.
pub struct LevelDb {
    functions: Functions,
    database: Pointer,
    reading: Pointer,
    writing: Pointer,
    folder: PathBuf,
    clock: u32,
}

/// A folder in memory if the system has one.
fn folder() -> PathBuf {
    let memory = PathBuf::from("/dev/shm");
    let parent = if memory.is_dir() { memory } else { std::env::temp_dir() };
    parent.join(format!("bench-leveldb-{}", std::process::id()))
}

impl LevelDb {
    /// An empty database; none if LevelDB is not installed.
    pub fn open() -> Option<LevelDb> {
        let library = Library::open(&[c"libleveldb.so.1d", c"libleveldb.so.1", c"libleveldb.so"])?;
        let folder = folder();
        let _ = std::fs::remove_dir_all(&folder);
        // SAFETY: the types are those of leveldb/c.h; what is opened here lives until the database is dropped.
        unsafe {
            let make: unsafe extern "C" fn() -> Pointer = library.function(c"leveldb_options_create");
            let create: unsafe extern "C" fn(Pointer, c_uchar) =
                library.function(c"leveldb_options_set_create_if_missing");
            let open: unsafe extern "C" fn(Pointer, *const c_char, Errors) -> Pointer =
                library.function(c"leveldb_open");
            let reading: unsafe extern "C" fn() -> Pointer = library.function(c"leveldb_readoptions_create");
            let writing: unsafe extern "C" fn() -> Pointer = library.function(c"leveldb_writeoptions_create");
            let options = make();
            create(options, 1);
            let name = CString::new(folder.to_str()?).ok()?;
            let mut error = null_mut();
            let database = open(options, name.as_ptr(), &mut error);
            assert!(error.is_null() && !database.is_null());
            let (reading, writing) = (reading(), writing());
            Some(LevelDb { functions: functions(&library), database, reading, writing, folder, clock: 1 })
        }
    }
}

/// # Safety
/// The library must be LevelDB.
unsafe fn functions(library: &Library) -> Functions {
    Functions {
        put: library.function(c"leveldb_put"),
        get: library.function(c"leveldb_get"),
        free: library.function(c"leveldb_free"),
        iterator: library.function(c"leveldb_create_iterator"),
        seek: library.function(c"leveldb_iter_seek"),
        valid: library.function(c"leveldb_iter_valid"),
        next: library.function(c"leveldb_iter_next"),
        key: library.function(c"leveldb_iter_key"),
        value: library.function(c"leveldb_iter_value"),
        destroy: library.function(c"leveldb_iter_destroy"),
        close: library.function(c"leveldb_close"),
    }
}

/// A number at a place of the database's own bytes.
///
/// # Safety
/// At least four bytes must stand there.
unsafe fn number(bytes: *const u8) -> [u8; 4] {
    bytes.cast::<[u8; 4]>().read_unaligned()
}

impl Portal for LevelDb {
    fn enter(&mut self, key: u32, value: u32) {
        let key = key.to_be_bytes();
        let mut held = [0; 8];
        held[..4].copy_from_slice(&value.to_le_bytes());
        held[4..].copy_from_slice(&self.clock.to_le_bytes());
        let mut error = null_mut();
        // SAFETY: pointers and lengths are of arrays that live through the call.
        unsafe {
            (self.functions.put)(self.database, self.writing, key.as_ptr(), 4, held.as_ptr(), 8, &mut error);
        }
        assert!(error.is_null());
        self.clock += 1;
    }

    fn look(&mut self, key: u32) -> Option<u32> {
        let key = key.to_be_bytes();
        let mut length = 0;
        let mut error = null_mut();
        // SAFETY: the key lives through the call; what is found has 8 bytes, as entered, and is freed once.
        unsafe {
            let found =
                (self.functions.get)(self.database, self.reading, key.as_ptr(), 4, &mut length, &mut error);
            assert!(error.is_null());
            if found.is_null() {
                return None;
            }
            let value = u32::from_le_bytes(number(found));
            (self.functions.free)(found);
            Some(value)
        }
    }

    fn page(&mut self, sample: u32, buffer: &mut [u8]) -> usize {
        let first = (sample * 32).to_be_bytes();
        let mut lines = Vec::with_capacity(32);
        // SAFETY: keys have 4 bytes and values 8, as entered; they are read only while the iterator stands on them.
        unsafe {
            let mut length = 0;
            let iterator = (self.functions.iterator)(self.database, self.reading);
            (self.functions.seek)(iterator, first.as_ptr(), 4);
            while (self.functions.valid)(iterator) != 0 {
                let key = u32::from_be_bytes(number((self.functions.key)(iterator, &mut length)));
                if key / 32 != sample {
                    break;
                }
                let held = (self.functions.value)(iterator, &mut length);
                let (value, stamp) =
                    (u32::from_le_bytes(number(held)), u32::from_le_bytes(number(held.add(4))));
                lines.push(Line { key, value, stamp });
                (self.functions.next)(iterator);
            }
            (self.functions.destroy)(iterator);
        }
        write_page(sample, &lines, buffer)
    }

    fn serve(&mut self, sample: u32, kept: &[u8]) -> usize {
        compare_page(kept, |buffer| self.page(sample, buffer))
    }
}

impl Drop for LevelDb {
    fn drop(&mut self) {
        // SAFETY: the database is open and is not used again.
        unsafe { (self.functions.close)(self.database) };
        let _ = std::fs::remove_dir_all(&self.folder);
    }
}
