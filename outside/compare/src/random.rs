//! Random numbers from a seed (splitmix64), the same on every machine.

/// A source of random numbers.
#[derive(Clone)]
pub struct Random {
    state: u64,
}

impl Random {
    /// A source of its own for each case of a kind.
    pub fn of_case(seed: u64, kind: &str, case: u64) -> Random {
        let mut random = Random { state: seed };
        for part in kind.bytes().map(u64::from).chain([case]) {
            random.state = random.word() ^ part;
        }
        random
    }

    fn word(&mut self) -> u64 {
        self.state = self.state.wrapping_add(0x9E37_79B9_7F4A_7C15);
        let mut word = self.state;
        word = (word ^ (word >> 30)).wrapping_mul(0xBF58_476D_1CE4_E5B9);
        word = (word ^ (word >> 27)).wrapping_mul(0x94D0_49BB_1331_11EB);
        word ^ (word >> 31)
    }

    /// Any 32-bit number.
    pub fn any(&mut self) -> u32 {
        (self.word() >> 32) as u32
    }

    /// Below a bound that is not 0.
    pub fn below(&mut self, bound: usize) -> usize {
        (((self.word() >> 32) * bound as u64) >> 32) as usize
    }

    /// Below a bound that is not 0, as a 32-bit number.
    pub fn small(&mut self, bound: u32) -> u32 {
        self.below(bound as usize) as u32
    }

    /// From the first to the last, both included.
    pub fn between(&mut self, first: usize, last: usize) -> usize {
        first + self.below(last - first + 1)
    }

    /// Once in so many times.
    pub fn once_in(&mut self, times: usize) -> bool {
        self.below(times) == 0
    }

    /// One of the list.
    pub fn pick<T: Copy>(&mut self, list: &[T]) -> T {
        list[self.below(list.len())]
    }

    /// A number of any length: values of few bits as often as those of many, and the ends.
    pub fn number(&mut self) -> u32 {
        match self.below(12) {
            0 => 0,
            1 => u32::MAX,
            2 => 1u32 << self.below(32),
            3 => (1u32 << self.below(32)) - 1,
            _ => self.any() >> self.below(32),
        }
    }

    /// Random bytes.
    pub fn bytes(&mut self, length: usize) -> Vec<u8> {
        (0..length).map(|_| self.any() as u8).collect()
    }
}
