//! Tables drawn at random or by a plan, and the files written from them. A
//! draft may break the paper's limits, so that refused files can be written.

use crate::answers::body_form;
use crate::file::{Row, MOST_ROWS, MOST_STATES};
use crate::random::Random;
use std::collections::BTreeSet;

pub const DEMAND: u8 = 1;
pub const SUPPLY: u8 = 2;

#[derive(Clone)]
pub struct Draft {
    pub kind: u8,
    pub states: usize,
    pub rows: Vec<Row>,
}

/// A draft with the rows given as from, target, set; they are put in order.
pub fn draft(kind: u8, states: usize, rows: &[(usize, usize, u16)]) -> Draft {
    let row = |&(from, target, set): &(usize, usize, u16)| Row {
        from: from as u8,
        set,
        target: target as u8,
    };
    let rows: BTreeSet<Row> = rows.iter().map(row).collect();
    Draft { kind, states, rows: rows.into_iter().collect() }
}

/// The file of these tables, each with its rows as they stand.
pub fn file_of(tables: &[Draft]) -> Vec<u8> {
    let mut file = (tables.len() as u16).to_le_bytes().to_vec();
    let mut offset = 2 + 6 * tables.len();
    for table in tables {
        file.extend([table.kind, table.states as u8]);
        file.extend((table.rows.len() as u16).to_le_bytes());
        file.extend((offset as u16).to_le_bytes());
        offset += 4 * table.rows.len();
    }
    for table in tables {
        file.extend(table.rows.iter().flat_map(body_form));
    }
    file
}

/// How the tables of a file are drawn.
#[derive(Clone, Copy)]
pub struct Style {
    pub resources: usize,
    /// The chance of 8 that a demand row requests a resource.
    pub requested: usize,
    /// The chance of 8 that a supply row grants a resource.
    pub granted: usize,
    /// The chance of 8 that a demand state has a row that requests nothing.
    pub waiting: usize,
    /// The chance of 8 that a set gets a second target.
    pub forking: usize,
    /// The chance of 64 that a demand state above 0 is stuck.
    pub demand_stuck: usize,
    /// The chance of 64 that a supply state above 0 is stuck.
    pub supply_stuck: usize,
    /// The chance of 8 that a demand row leads to FIN.
    pub demand_ends: usize,
    /// The chance of 8 that a supply row leads to FIN.
    pub supply_ends: usize,
    /// The most rows drawn for a state, besides waiting and second targets.
    pub most_rows: usize,
}

/// Styles from supplies that grant much to supplies that grant little.
pub fn random_style(random: &mut Random) -> Style {
    let resources = match random.below(8) {
        0 => random.between(5, 16),
        _ => random.between(1, 4),
    };
    let generous = random.pick(&[0, 1, 1, 2, 2, 2, 3]);
    Style {
        resources,
        requested: random.between(1, 4),
        granted: [3, 5, 7, 8][generous],
        waiting: random.pick(&[0, 2, 5, 8]),
        forking: random.pick(&[0, 2, 6]),
        demand_stuck: random.pick(&[0, 0, 3, 8]),
        supply_stuck: random.pick(&[0, 0, 0, 0, 2]),
        demand_ends: random.pick(&[0, 1, 3, 6]),
        supply_ends: random.pick(&[0, 0, 0, 1, 3]),
        most_rows: random.between(1, 3),
    }
}

/// Many states stuck, many rows to FIN, many empty sets.
fn odd_style(random: &mut Random) -> Style {
    Style {
        resources: random.between(1, 2),
        requested: 3,
        granted: 4,
        waiting: 3,
        forking: 2,
        demand_stuck: 16,
        supply_stuck: 16,
        demand_ends: 4,
        supply_ends: 4,
        most_rows: 2,
    }
}

fn random_set(random: &mut Random, resources: usize, chance: usize) -> u16 {
    (0..resources).filter(|_| random.chance(chance, 8)).map(|resource| 1 << resource).sum()
}

/// How many states a table gets: mostly few, sometimes up to 64.
fn random_states(random: &mut Random) -> usize {
    match random.below(32) {
        0 => 1,
        1..=19 => random.between(2, 6),
        20..=28 => random.between(7, 16),
        _ => random.between(17, MOST_STATES),
    }
}

fn random_target(random: &mut Random, states: usize, ends: usize) -> usize {
    if random.chance(ends, 8) {
        0
    } else {
        random.between(1, states - 1)
    }
}

pub fn random_table(random: &mut Random, kind: u8, states: usize, style: Style) -> Draft {
    let (chance, stuck, ends) = match kind {
        DEMAND => (style.requested, style.demand_stuck, style.demand_ends),
        _ => (style.granted, style.supply_stuck, style.supply_ends),
    };
    let mut rows = Vec::new();
    for state in 1..states {
        if random.chance(stuck, 64) {
            continue;
        }
        for _ in 0..random.between(1, style.most_rows) {
            let set = random_set(random, style.resources, chance);
            rows.push((state, random_target(random, states, ends), set));
            if random.chance(style.forking, 8) {
                rows.push((state, random_target(random, states, ends), set));
            }
        }
        if kind == DEMAND && random.chance(style.waiting, 8) {
            rows.push((state, random_target(random, states, ends), 0));
        }
    }
    draft(kind, states, &rows)
}

/// Tables of these kinds, all in one style.
fn tables_of_kinds(random: &mut Random, kinds: &[u8], style: Style) -> Vec<Draft> {
    let mut tables = Vec::new();
    for kind in kinds {
        let states = random_states(random);
        tables.push(random_table(random, *kind, states, style));
    }
    tables
}

/// A demand and a supply table, sometimes with others after them.
pub fn random_tables(random: &mut Random) -> Vec<Draft> {
    let style = random_style(random);
    let mut kinds = vec![DEMAND, SUPPLY];
    if random.chance(1, 4) {
        let more = random.between(1, 14);
        kinds.extend((0..more).map(|_| random.pick(&[DEMAND, SUPPLY])));
    }
    tables_of_kinds(random, &kinds, style)
}

/// 1 to 16 tables whose kinds come in any order; one kind may be missing.
pub fn tables_in_any_order(random: &mut Random) -> Vec<Draft> {
    let style = random_style(random);
    let count = random.between(1, 16);
    let changes_at = random.below(count);
    let order = random.below(6);
    let kind_at = |index: usize, random: &mut Random| match order {
        0 => DEMAND,
        1 => SUPPLY,
        2 if index < changes_at => SUPPLY,
        2 => DEMAND,
        3 if index < changes_at => DEMAND,
        3 => SUPPLY,
        _ => random.pick(&[DEMAND, SUPPLY]),
    };
    let kinds: Vec<u8> = (0..count).map(|index| kind_at(index, random)).collect();
    tables_of_kinds(random, &kinds, style)
}

/// 1 to 4 tables, all of the same kind.
pub fn tables_of_one_kind(random: &mut Random) -> Vec<Draft> {
    let style = random_style(random);
    let kind = random.pick(&[DEMAND, SUPPLY]);
    let count = random.between(1, 4);
    tables_of_kinds(random, &vec![kind; count], style)
}

/// Small tables with stuck states, FIN alone, empty sets and much idling.
pub fn odd_tables(random: &mut Random) -> Vec<Draft> {
    let style = odd_style(random);
    let mut tables = Vec::new();
    for kind in [DEMAND, SUPPLY] {
        let states = random.between(1, 4);
        tables.push(random_table(random, kind, states, style));
    }
    tables
}

/// A task and a supply that each go round their states, with one bad pair: only
/// there is a resource requested that is not granted. Pairs fall one after the
/// other.
struct Cycles {
    demand_length: usize,
    supply_length: usize,
    bad_demand: usize,
    bad_supply: usize,
    /// The chance of 16 that a demand state has a second row, with the same set
    /// and another target.
    more: usize,
}

impl Cycles {
    fn tables(&self, random: &mut Random) -> Vec<Draft> {
        let scarce = 1 << random.below(16);
        let plenty = (random.next() as u16) & !scarce;
        let mut demand = Vec::new();
        for state in 1..=self.demand_length {
            let harmless = (random.next() as u16) & plenty;
            let set = if state == self.bad_demand { harmless | scarce } else { harmless };
            demand.push((state, state % self.demand_length + 1, set));
            if random.chance(self.more, 16) {
                demand.push((state, random.between(0, self.demand_length), set));
            }
        }
        let mut supply = Vec::new();
        for state in 1..=self.supply_length {
            let set = if state == self.bad_supply { plenty } else { plenty | scarce };
            supply.push((state, state % self.supply_length + 1, set));
        }
        vec![
            draft(DEMAND, self.demand_length + 1, &demand),
            draft(SUPPLY, self.supply_length + 1, &supply),
        ]
    }
}

/// Cycles of random lengths.
fn random_cycles(random: &mut Random, shortest: usize, longest: usize) -> Vec<Draft> {
    let demand_length = random.between(shortest, longest);
    let supply_length = random.between(shortest, longest);
    let cycles = Cycles {
        demand_length,
        supply_length,
        bad_demand: random.between(1, demand_length),
        bad_supply: random.between(1, supply_length),
        more: random.pick(&[0, 0, 1, 4]),
    };
    cycles.tables(random)
}

/// Cycles of 63 and 62 states: from states 1 and 1 the bad pair is reached last,
/// after a run of 3,906 steps.
fn longest_cycles(random: &mut Random) -> Vec<Draft> {
    let cycles = Cycles {
        demand_length: 63,
        supply_length: 62,
        bad_demand: 63,
        bad_supply: 62,
        more: 0,
    };
    cycles.tables(random)
}

/// A task that is a chain into a stuck state or FIN, with some rows that stay
/// or skip, and a supply cycle that grants all or nothing.
fn chain(random: &mut Random) -> Vec<Draft> {
    let length = random.between(1, 63);
    let into_fin = random.chance(1, 2);
    let mut demand = Vec::new();
    for state in 1..=length {
        let last = state == length;
        if !last || into_fin {
            demand.push((state, if last { 0 } else { state + 1 }, 1));
        }
        if random.chance(1, 4) {
            let target = random.between(state, length);
            demand.push((state, target, random.pick(&[0, 1, 2])));
        }
    }
    let supply_length = random.between(1, 5);
    let mut supply = Vec::new();
    for state in 1..=supply_length {
        supply.push((state, state % supply_length + 1, random.pick(&[3, 3, 3, 1, 7])));
        if random.chance(1, 8) {
            supply.push((state, random.between(1, supply_length), random.pick(&[0, 1, 3])));
        }
    }
    vec![draft(DEMAND, length + 1, &demand), draft(SUPPLY, supply_length + 1, &supply)]
}

/// A set of resources 0 to 3, with one resource or more.
fn small_set(random: &mut Random) -> u16 {
    random.between(1, 15) as u16
}

/// A task whose rows lead forward, a few states at a time and by several ways,
/// into a stuck state, and a supply with several rows in each state. Marks are
/// high and differ much between the two modes.
pub fn branching(random: &mut Random) -> Vec<Draft> {
    let length = random.between(3, 16);
    let back = random.pick(&[0, 1, 3, 5]);
    let mut demand = Vec::new();
    for state in 1..length {
        let waits = random.chance(7, 8);
        let count = random.between(1, 5);
        for index in 0..count {
            let set = if index == 0 && waits { 0 } else { small_set(random) };
            for _ in 0..random.between(1, 3) {
                let target = match random.chance(back, 16) {
                    true => random.between(0, state),
                    false => (state + random.between(1, 3)).min(length),
                };
                demand.push((state, target, set));
            }
        }
    }
    let supply_length = random.between(1, 4);
    let mut supply = Vec::new();
    for state in 1..=supply_length {
        for _ in 0..random.between(1, 6) {
            supply.push((state, random.between(1, supply_length), small_set(random)));
        }
    }
    vec![draft(DEMAND, length + 1, &demand), draft(SUPPLY, supply_length + 1, &supply)]
}

/// Cycles and chains: turn 0 has 3,906 rounds, most others far fewer.
pub fn cycles_or_chain(random: &mut Random, turn: usize) -> Vec<Draft> {
    if turn == 0 {
        return longest_cycles(random);
    }
    match turn % 24 {
        1 | 7 | 13 | 19 => chain(random),
        5 => random_cycles(random, 40, 63),
        _ => random_cycles(random, 1, 24),
    }
}

/// Exactly so many rows, drawn at random over all states. There are resources
/// enough for twice as many rows.
pub fn table_with_rows(random: &mut Random, kind: u8, states: usize, count: usize) -> Draft {
    let enough = |resources: &usize| (states - 1) * states << resources >= 2 * count;
    let choices: Vec<usize> = [4, 9, 16].into_iter().filter(enough).collect();
    let resources = random.pick(&choices);
    let mut rows = BTreeSet::new();
    while rows.len() < count {
        let from = random.between(1, states - 1) as u8;
        let target = random.below(states) as u8;
        rows.insert(Row { from, set: random_set(random, resources, 4), target });
    }
    Draft { kind, states, rows: rows.into_iter().collect() }
}

/// 16 tables of 512 rows: the longest file.
pub fn largest_tables(random: &mut Random) -> Vec<Draft> {
    let mut tables = Vec::new();
    for index in 0..16 {
        let kind = [DEMAND, SUPPLY][index % 2];
        tables.push(table_with_rows(random, kind, MOST_STATES, MOST_ROWS));
    }
    tables
}
