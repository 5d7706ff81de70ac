//! Libraries opened while the program runs, so that it works where one is not installed.

use std::ffi::{c_char, c_int, c_void, CStr};

extern "C" {
    fn dlopen(name: *const c_char, how: c_int) -> *mut c_void;
    fn dlsym(library: *mut c_void, name: *const c_char) -> *mut c_void;
}

const NOW: c_int = 2;

/// An open library; it is never closed.
pub struct Library(*mut c_void);

impl Library {
    /// Opens the first library of the names that is there.
    pub fn open(names: &[&CStr]) -> Option<Library> {
        // SAFETY: the names end with a zero byte. Opening runs the library's own beginnings, as linking it would.
        names
            .iter()
            .map(|name| unsafe { dlopen(name.as_ptr(), NOW) })
            .find(|library| !library.is_null())
            .map(Library)
    }

    /// The function with this name, as a pointer of type F.
    ///
    /// # Safety
    /// F must be a C function pointer with the function's own signature.
    pub unsafe fn function<F: Copy>(&self, name: &CStr) -> F {
        let found = dlsym(self.0, name.as_ptr());
        assert!(!found.is_null(), "{name:?} is missing");
        assert_eq!(size_of::<F>(), size_of::<*mut c_void>());
        std::mem::transmute_copy(&found)
    }
}
