//! The library's functions, as the header `olipranj.h` declares them.

use crate::{Answer, Raw, Refusal};

/// The layout of this crate's types; the library must have the same one.
const LAYOUT: u32 = 1;

extern "C" {
    pub fn olipranj_layout() -> u32;
    pub fn olipranj_fresh(into: *mut Raw, plan: u32) -> Answer;
    pub fn olipranj_step(store: *mut Raw, number: u32, x: u32, y: u32) -> Answer;
    pub fn olipranj_good(store: *const Raw) -> Answer;
    pub fn olipranj_look(store: *const Raw, key: u32) -> Answer;
    pub fn olipranj_save(store: *const Raw, buffer: *mut u8, length: usize) -> Answer;
    pub fn olipranj_load(into: *mut Raw, bytes: *const u8, length: usize) -> Answer;
    pub fn olipranj_page(store: *const Raw, sample: u32, buffer: *mut u8, length: usize) -> Answer;
    pub fn olipranj_serve(store: *const Raw, sample: u32, kept: *const u8, length: usize) -> usize;
}

/// Nothing if the library has the layout of this crate, else the refusal: no other call may be made.
pub fn layout_fits() -> Result<(), Refusal> {
    // SAFETY: it takes nothing, and gives a number in every layout.
    match unsafe { olipranj_layout() } {
        LAYOUT => Ok(()),
        other => Err(Refusal::of_layout(other, LAYOUT)),
    }
}

impl Raw {
    /// The check of all store rules alone: DONE, or BADSTORE.
    #[must_use = "BADSTORE: the store breaks a rule"]
    pub fn good(&self) -> Answer {
        // SAFETY: the pointer is to a store that nobody changes during the call.
        unsafe { olipranj_good(self) }
    }
}
