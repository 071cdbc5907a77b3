//! The distinct grants of a supply table, numbered in the order in which its rows bring them.

use super::machine::{Machine, ROOM};

const SLOTS: usize = 1024;

pub struct Grants {
    pub count: usize,
    pub sets: [u16; ROOM],
    /// The number of the grant of each row.
    pub of_row: [u16; ROOM],
    /// The call in which a slot was written, the set, and its number.
    slots: [u64; SLOTS],
    calls: u64,
}

impl Grants {
    pub fn new() -> Grants {
        Grants { count: 0, sets: [0; ROOM], of_row: [0; ROOM], slots: [0; SLOTS], calls: 0 }
    }

    pub fn number(&mut self, supply: &Machine) {
        self.calls = self.calls % u32::MAX as u64 + 1;
        if self.calls == 1 {
            self.slots.fill(0);
        }
        self.count = 0;
        for row in 0..supply.rows {
            self.of_row[row] = self.number_of(supply.sets[row]);
        }
    }

    fn number_of(&mut self, set: u16) -> u16 {
        let mut at = (set.wrapping_mul(0x9E37) >> 6) as usize;
        loop {
            let slot = self.slots[at];
            if slot >> 32 != self.calls {
                let number = self.count;
                self.slots[at] = self.calls << 32 | (set as u64) << 16 | number as u64;
                self.sets[number] = set;
                self.count += 1;
                return number as u16;
            }
            if (slot >> 16) as u16 == set {
                return slot as u16;
            }
            at = (at + 1) % SLOTS;
        }
    }
}
