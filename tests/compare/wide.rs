//! Tables whose graphs have long texts, around the longest that `aut` prints.

use crate::drafts::{draft, file_of, Draft, DEMAND, SUPPLY};
use crate::random::Random;

/// How many files `wide_graph` makes.
pub const WIDE_GRAPHS: usize = 4;

/// A file whose text has more than 4 MiB, exactly 4 MiB, one byte more, or very
/// many sets that do not include each other; `which` counts below `WIDE_GRAPHS`.
pub fn wide_graph(random: &mut Random, which: usize) -> Vec<u8> {
    let tables = match which {
        0 => unmet_tables([random.between(409, 512), 9], [random.between(409, 512), 9]),
        1 => unmet_tables([408, 18], [409, 113]),
        2 => unmet_tables([408, 37], [409, 55]),
        _ => incomparable_tables(),
    };
    file_of(&tables)
}

/// So many rows of a demand and of a supply, of each of which the last ones lead
/// to a higher state; all requests have resource 15, which is never granted. With
/// d and s rows there are (d + 1) x (s + 1) moves, each on a line of 25 bytes,
/// but 26 where a last row of the one meets a last row of the other: the pair to
/// which these lead is 11.
fn unmet_tables(demand: [usize; 2], supply: [usize; 2]) -> [Draft; 2] {
    let rows = |[count, last]: [usize; 2], higher: usize, first: usize| {
        let target = move |index| if index < count - last { 0 } else { higher };
        let row = move |index| (1, target(index), (first + index) as u16);
        (0..count).map(row).collect::<Vec<(usize, usize, u16)>>()
    };
    let demand = draft(DEMAND, 2, &rows(demand, 1, 32_768));
    [demand, draft(SUPPLY, 6, &rows(supply, 5, 0))]
}

/// Requests of five resources out of ten, beside grants of all ten and more.
fn incomparable_tables() -> [Draft; 2] {
    let fives = (0..1024).filter(|set: &u16| set.count_ones() == 5);
    let demand: Vec<(usize, usize, u16)> = fives.map(|set| (1, 1, set)).collect();
    let supply: Vec<(usize, usize, u16)> =
        (0..64).map(|more| (1, more % 3, 1023 + 1024 * more as u16)).collect();
    [draft(DEMAND, 2, &demand), draft(SUPPLY, 3, &supply)]
}
