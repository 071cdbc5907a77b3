//! A table, loaded: its rows in order, after the idle row of FIN, and where the rows of each state start.

use crate::file::{entry, MOST_STATES};

/// Room for the idle row and 512 others, up to a multiple of 64.
pub const ROOM: usize = 576;

/// A mask of rows, and a word more.
pub type Rows = [u64; ROOM / 64 + 1];
pub const NO_ROWS: Rows = [0; ROOM / 64 + 1];

pub struct Machine {
    pub states: usize,
    /// How many rows there are, the idle row among them.
    pub rows: usize,
    first: [u16; MOST_STATES + 1],
    pub froms: [u8; ROOM],
    pub sets: [u16; ROOM],
    pub targets: [u8; ROOM],
    /// The resources that some row names.
    pub named: u16,
}

/// The mask of those of at most 64 sets that lie inside a grant.
pub fn inside(sets: &[u16], grant: u16) -> u64 {
    let mut found = 0;
    for (i, set) in sets.iter().enumerate() {
        found |= ((set & !grant == 0) as u64) << i;
    }
    found
}

impl Machine {
    pub fn new() -> Machine {
        Machine { states: 0, rows: 0, first: [0; MOST_STATES + 1], froms: [0; ROOM], sets: [0; ROOM], targets: [0; ROOM], named: 0 }
    }

    /// The rows of a state, from the first to the one after the last.
    pub fn range(&self, state: usize) -> (usize, usize) {
        (self.first[state] as usize, self.first[state + 1] as usize)
    }

    pub fn has_many_resources(&self) -> bool {
        self.named > 255
    }

    /// The mask of the rows whose sets lie inside a grant; past the last row its bits mean nothing.
    pub fn rows_inside(&self, grant: u16) -> Rows {
        let mut rows = NO_ROWS;
        for (part, sets) in self.sets[..self.rows.next_multiple_of(64)].chunks_exact(64).enumerate() {
            rows[part] = inside(sets, grant);
        }
        rows
    }

    /// Loads a table of a kind, if it is there and its rows are as they should be.
    pub fn load(&mut self, file: &[u8], table: usize, kind: u8) -> Option<()> {
        let found = entry(file, table, kind)?;
        let body = file.get(found.offset..found.offset + 4 * found.rows)?;
        let n = found.states;
        let (mut state, mut before, mut named, mut fits) = (0, 0u32, 0, true);
        (self.states, self.rows) = (n, 1 + found.rows);
        for (bytes, at) in body.chunks_exact(4).zip(1usize..) {
            let row = u32::from_le_bytes([bytes[0], bytes[1], bytes[2], bytes[3]]);
            let (from, target, set) = ((row & 255) as usize, row >> 8 & 255, row >> 16);
            let place = (from as u32) << 24 | set << 8 | target;
            fits &= place > before && (target as usize) < n;
            before = place;
            if from != state {
                if from < state || n <= from {
                    return None;
                }
                self.first[state + 1..=from].fill(at as u16);
                state = from;
            }
            named |= set as u16;
            (self.froms[at], self.sets[at], self.targets[at]) = (from as u8, set as u16, target as u8);
        }
        self.first[state + 1..=n].fill(1 + found.rows as u16);
        self.named = named;
        // A row of FIN would stand before the rows of other states.
        (fits && self.first[1] == 1).then_some(())
    }
}
