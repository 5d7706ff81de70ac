//! The library's calls as they are: numbers in, a numbered answer out.

use crate::{sys, Answer, Raw};

impl Raw {
    /// Lays down a fresh store of the plan here: DONE; or PLAN, and a fresh store of plan 1. What stood here is gone, so
    /// this is offered with the feature `overwriting` alone, to the comparison and the measurement.
    #[cfg(feature = "overwriting")]
    pub fn fresh_here(&mut self, plan: u32) -> Answer {
        self.lay_fresh(plan)
    }

    /// Lays down the store of an image here: DONE; or its first fault, and a fresh store of plan 1. Offered likewise.
    #[cfg(feature = "overwriting")]
    pub fn load_here(&mut self, image: &[u8]) -> Answer {
        self.lay_image(image)
    }

    pub(crate) fn lay_fresh(&mut self, plan: u32) -> Answer {
        // SAFETY: the pointer is to a store that is lent to this call alone.
        unsafe { sys::olipranj_fresh(self, plan) }
    }

    pub(crate) fn lay_image(&mut self, image: &[u8]) -> Answer {
        // SAFETY: the store is lent to this call alone, and the pointer and length are of one slice, never null.
        unsafe { sys::olipranj_load(self, image.as_ptr(), image.len()) }
    }

    /// Enters a result: DONE with its stamp; or CLOCK, or FULL.
    pub fn enter(&mut self, key: u32, value: u32) -> Answer {
        self.numbered(1, key, value)
    }

    /// Withdraws a line: DONE with the stamp; or CLOCK, or FULL.
    pub fn withdraw(&mut self, key: u32) -> Answer {
        self.numbered(2, key, 0)
    }

    /// Carries a node's copies along one of its edges: DONE with carried, discarded and left; or NODE, or EDGE.
    pub fn carry(&mut self, node: u32, edge: u32) -> Answer {
        self.numbered(3, node, edge)
    }

    /// Starts a search in the lowest idle slot: DONE with the slot; or SLOTS.
    pub fn start(&mut self, key: u32) -> Answer {
        self.numbered(4, key, 0)
    }

    /// Lets a slot's search visit one node: DONE as [`Raw::look`], GOING with node and visits; or SLOT, or IDLE.
    pub fn step(&mut self, slot: u32) -> Answer {
        self.numbered(5, slot, 0)
    }

    /// Ends a slot's search: DONE; or SLOT, or IDLE.
    pub fn cancel(&mut self, slot: u32) -> Answer {
        self.numbered(6, slot, 0)
    }

    /// A step by its number, 1 to 6 in the order above, and its numbers; an unknown number is OP.
    pub fn numbered(&mut self, number: u32, x: u32, y: u32) -> Answer {
        // SAFETY: the pointer is to a store that is lent to this call alone.
        unsafe { sys::olipranj_step(self, number, x, y) }
    }

    /// A whole search: DONE with 0 never, 1 withdrawn or 2 result, then value, stamp and nodes visited.
    pub fn look(&self, key: u32) -> Answer {
        // SAFETY: the pointer is to a store that nobody changes during the call.
        unsafe { sys::olipranj_look(self, key) }
    }

    /// Writes the store's image at the buffer's beginning: DONE with its bytes; or SMALL with the bytes needed.
    pub fn save(&self, buffer: &mut [u8]) -> Answer {
        // SAFETY: nobody changes the store during the call; pointer and length are of one slice, lent to it alone.
        unsafe { sys::olipranj_save(self, buffer.as_mut_ptr(), buffer.len()) }
    }

    /// Writes the sample's page at the buffer's beginning: DONE with its bytes; or SAMPLE, or SMALL.
    pub fn page(&self, sample: u32, buffer: &mut [u8]) -> Answer {
        // SAFETY: nobody changes the store during the call; pointer and length are of one slice, lent to it alone.
        unsafe { sys::olipranj_page(self, sample, buffer.as_mut_ptr(), buffer.len()) }
    }

    /// How many of the kept bytes are the sample's page as it is now; 0 if they do not begin with it.
    #[must_use = "0: the notice is due"]
    pub fn true_bytes(&self, sample: u32, kept: &[u8]) -> usize {
        // SAFETY: nobody changes the store or the slice during the call; pointer and length are of that slice.
        unsafe { sys::olipranj_serve(self, sample, kept.as_ptr(), kept.len()) }
    }
}
