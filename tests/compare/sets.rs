//! The sets of resources that random questions have.

use crate::file::Table;
use crate::random::Random;

/// A set for a call that does not read it.
pub fn any_set(random: &mut Random) -> usize {
    let set = match random.below(4) {
        0 => 0,
        1 => u16::MAX,
        _ => random.next() as u16,
    };
    with_higher_bits(random, set)
}

/// Common resources for a join of two tables: often none, or all, or any; or one
/// that both tables use, some that a table uses, some that neither uses.
pub fn common_set(random: &mut Random, first: &Table, second: &Table) -> usize {
    let (one, other) = (first.resources(), second.resources());
    let set = match random.below(16) {
        0..=4 => 0,
        5 | 6 => u16::MAX,
        7 | 8 => random.next() as u16,
        9 | 10 => one_of(random, one & other),
        11..=13 => part_of(random, one | other),
        _ => part_of(random, !(one | other)),
    };
    with_higher_bits(random, set)
}

/// Standing resources for a demand beside a supply: often none, or all, or any; or
/// one that the demand requests, most often one that some supply row does not grant;
/// or some that a table uses, or some that neither uses.
pub fn standing_set(random: &mut Random, demand: &Table, supply: &Table) -> usize {
    let used = demand.resources() | supply.resources();
    let scarce = !supply.rows.iter().fold(u16::MAX, |all, row| all & row.set);
    let set = match random.below(16) {
        0..=4 => 0,
        5 => u16::MAX,
        6 | 7 => random.next() as u16,
        8..=10 => one_of(random, demand.resources() & scarce),
        11 => one_of(random, demand.resources()),
        12 | 13 => part_of(random, used),
        _ => part_of(random, !used),
    };
    with_higher_bits(random, set)
}

/// A resource of a set; none where the set is empty.
fn one_of(random: &mut Random, set: u16) -> u16 {
    let all = (0..16).map(|resource| 1 << resource);
    let resources: Vec<u16> = all.filter(|resource| set & resource != 0).collect();
    if resources.is_empty() {
        return 0;
    }
    random.pick(&resources)
}

fn part_of(random: &mut Random, set: u16) -> u16 {
    random.next() as u16 & set
}

/// The number of a set; two times in 32 with bits above the lowest 16, which are
/// not read.
pub fn with_higher_bits(random: &mut Random, set: u16) -> usize {
    let higher = match random.below(32) {
        0 => 1 << random.between(16, 63),
        1 => random.next() as usize & !(u16::MAX as usize),
        _ => 0,
    };
    higher | set as usize
}
