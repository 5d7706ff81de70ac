//! What a portal does in a day, on each store.

/// A store behind a portal.
pub trait Portal {
    /// Enters a result.
    fn enter(&mut self, key: u32, value: u32);
    /// A line's current value.
    fn look(&mut self, key: u32) -> Option<u32>;
    /// Writes the sample's page and gives its length.
    fn page(&mut self, sample: u32, buffer: &mut [u8]) -> usize;
    /// How many of the kept bytes are the page as it is now.
    fn serve(&mut self, sample: u32, kept: &[u8]) -> usize;
}

impl Portal for olipranj::Raw {
    fn enter(&mut self, key: u32, value: u32) {
        if !olipranj::Raw::enter(self, key, value).is_done() {
            for node in [2, 1, 0] {
                assert!(self.carry(node, 0).is_done());
            }
            assert!(olipranj::Raw::enter(self, key, value).is_done());
        }
    }

    fn look(&mut self, key: u32) -> Option<u32> {
        olipranj::Raw::look(self, key).result().map(|(value, _)| value as u32)
    }

    fn page(&mut self, sample: u32, buffer: &mut [u8]) -> usize {
        olipranj::Raw::page(self, sample, buffer).a as usize
    }

    fn serve(&mut self, sample: u32, kept: &[u8]) -> usize {
        self.true_bytes(sample, kept)
    }
}

impl Portal for model::Store {
    fn enter(&mut self, key: u32, value: u32) {
        if !model::enter(self, key, value).is_done() {
            for node in [2, 1, 0] {
                model::carry(self, node, 0);
            }
            assert!(model::enter(self, key, value).is_done());
        }
    }

    fn look(&mut self, key: u32) -> Option<u32> {
        let answer = model::look(self, key);
        (answer.a == 2).then_some(answer.b as u32)
    }

    fn page(&mut self, sample: u32, buffer: &mut [u8]) -> usize {
        model::page(self, sample, buffer).a as usize
    }

    fn serve(&mut self, sample: u32, kept: &[u8]) -> usize {
        model::serve(self, sample, kept)
    }
}
