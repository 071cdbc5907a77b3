//! Random numbers from a fixed seed, by the method called splitmix64.

pub struct Random {
    state: u64,
}

impl Random {
    pub fn new(seed: u64) -> Random {
        Random { state: seed }
    }

    pub fn next(&mut self) -> u64 {
        self.state = self.state.wrapping_add(0x9E37_79B9_7F4A_7C15);
        let mut mixed = self.state;
        mixed = (mixed ^ (mixed >> 30)).wrapping_mul(0xBF58_476D_1CE4_E5B9);
        mixed = (mixed ^ (mixed >> 27)).wrapping_mul(0x94D0_49BB_1331_11EB);
        mixed ^ (mixed >> 31)
    }

    /// A number from 0 to `limit` - 1.
    pub fn below(&mut self, limit: usize) -> usize {
        (self.next() % limit as u64) as usize
    }

    /// A number from `low` to `high`, both possible.
    pub fn between(&mut self, low: usize, high: usize) -> usize {
        low + self.below(high - low + 1)
    }

    /// True in `parts` of `whole` cases.
    pub fn chance(&mut self, parts: usize, whole: usize) -> bool {
        self.below(whole) < parts
    }

    /// A set of the resources 0 to `resources` - 1.
    pub fn set(&mut self, resources: usize) -> u16 {
        (self.next() & ((1 << resources) - 1)) as u16
    }

    /// A set of `count` of the 16 resources.
    pub fn set_of(&mut self, count: usize) -> u16 {
        let mut set = 0u16;
        while (set.count_ones() as usize) < count {
            set |= 1 << self.below(16);
        }
        set
    }
}
