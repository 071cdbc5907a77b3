//! The tables that are measured.

use crate::engines::Question;
use crate::file::{file, row, table, Row, Table, DEMAND, SUPPLY};
use crate::random::Random;

/// Two tables to measure.
pub struct Case {
    pub name: String,
    /// Whether they are of the series whose tables grow from one to the next.
    pub in_series: bool,
    pub asked: Question,
}

fn question(demand: Table, supply: Table) -> Question {
    Question { file: file(&[demand, supply]), demand: 0, supply: 1, state: 1 }
}

fn case(name: &str, demand: Table, supply: Table) -> Case {
    Case { name: name.to_string(), in_series: false, asked: question(demand, supply) }
}

/// The input that document 01 calls E.
const E: [u8; 38] = [2, 0, 1, 4, 4, 0, 14, 0, 2, 3, 2, 0, 30, 0, 1, 2, 1, 0, 1, 3, 2, 0, 2, 0, 1, 0, 3, 0, 2, 0, 1, 2, 3, 0, 2, 0, 1, 0];

pub fn cases() -> Vec<Case> {
    let random = &mut Random::new(1);
    let e = Question { file: E.to_vec(), demand: 0, supply: 1, state: 1 };
    let mut all = vec![Case { name: "E".to_string(), in_series: false, asked: e }];
    all.push(case("6 × 5, 3 resources", spread(random, DEMAND, 6, 12, 3), spread(random, SUPPLY, 5, 10, 3)));
    all.push(case("16 × 16, 4 resources", spread(random, DEMAND, 16, 64, 4), spread(random, SUPPLY, 16, 64, 4)));
    for resources in [3, 4, 6, 16] {
        let name = format!("64 × 64, {resources} resources");
        all.push(case(&name, spread(random, DEMAND, 64, 512, resources), spread(random, SUPPLY, 64, 512, resources)));
    }
    let idle = with_idle(spread(random, DEMAND, 64, 440, 16), 56);
    all.push(case("64 × 64, 16 resources, most can idle", idle, spread(random, SUPPLY, 64, 512, 16)));
    let idle = with_idle(spread(random, DEMAND, 64, 440, 4), 63);
    all.push(case("64 × 64, all kept", idle, spread(random, SUPPLY, 64, 512, 4)));
    all.push(case("cycles of 63 and 62", cycle(DEMAND, 63, 1), cycle(SUPPLY, 62, 1)));
    all.push(case("cycles of 63 and 62, 8 rows a state", cycle(DEMAND, 63, 8), cycle(SUPPLY, 62, 8)));
    all.push(wide(random));
    for (a, b) in [(10, 9), (20, 19), (40, 41), (61, 63)] {
        all.push(beside_wide(a, b, random));
    }
    all
}

/// Random rows, one at least for each state, and `rows` in all. A grant is the union of two random sets where there are few resources, so that many
/// pairs live on after round 1.
fn spread(random: &mut Random, kind: u8, states: usize, rows: usize, resources: usize) -> Table {
    let mut found: Vec<Row> = Vec::new();
    while found.len() < rows {
        let from = if found.len() < states - 1 { found.len() + 1 } else { random.between(1, states - 1) };
        let mut set = random.set(resources);
        if kind == SUPPLY && resources < 16 {
            set |= random.set(resources);
        }
        let made = row(from, set, random.below(states));
        if !found.contains(&made) {
            found.push(made);
        }
    }
    table(kind, states, found)
}

/// The same table where the states from 1 to `last` have a row that requests nothing.
fn with_idle(mut made: Table, last: usize) -> Table {
    made.rows.extend((1..=last).map(|state| row(state, 0, state * 7 % made.states)));
    table(made.kind, made.states, made.rows)
}

/// Twelve resources, which the supplies of the cycles grant.
const OFFERED: u16 = 0x0FFF;

/// The rows of a cycle through the states 1 to `length`, so many for each state. The first task state requests something in each of its rows, the
/// others request nothing in one; the first supply state grants nothing in one of its rows, and in all others a supply grants what any row requests.
/// So round 1 strikes the pair of the two first states, and the one of the first task state with FIN; then each round strikes the pairs before.
fn cycle_rows(kind: u8, length: usize, each: usize) -> Vec<Row> {
    let mut rows = Vec::new();
    for state in 1..=length {
        for i in 0..each {
            let set = match (kind, state) {
                (DEMAND, 1) => i + 1,
                (DEMAND, _) | (_, 1) if i == 0 => 0,
                (DEMAND, _) => i,
                _ => OFFERED as usize + 0x1000 * i,
            };
            rows.push(row(state, set as u16, state % length + 1));
        }
    }
    rows
}

fn cycle(kind: u8, length: usize, each: usize) -> Table {
    table(kind, length + 1, cycle_rows(kind, length, each))
}

/// `count` sets of 5 to 10 resources, no two of them equal.
fn requests(random: &mut Random, count: usize) -> Vec<u16> {
    let mut sets = Vec::new();
    while sets.len() < count {
        let size = random.between(5, 10);
        let set = random.set_of(size);
        if !sets.contains(&set) {
            sets.push(set);
        }
    }
    sets
}

/// As many grants of 9 to 14 resources, no two of them equal, to each of which some request responds.
fn grants(random: &mut Random, requests: &[u16]) -> Vec<u16> {
    let mut sets: Vec<u16> = Vec::new();
    while sets.len() < requests.len() {
        let size = random.between(9, 14);
        let set = random.set_of(size);
        if !sets.contains(&set) && requests.iter().any(|request| request & !set == 0) {
            sets.push(set);
        }
    }
    sets
}

/// Whether all maximal responses to a grant lead to FIN.
fn ends(demand: &[Row], grant: u16) -> bool {
    let larger = |a: &Row, b: &Row| b.set != a.set && a.set & !b.set == 0;
    let responses: Vec<&Row> = demand.iter().filter(|row| row.set & !grant == 0).collect();
    responses.iter().filter(|row| row.target > 0).all(|row| responses.iter().any(|other| larger(row, other)))
}

/// One state with 450 rows on each side. Most task rows lead to FIN, the others back to the state; a supply row leads to FIN where all maximal
/// responses do, else back to the state. So the pair of the two is kept in both modes, and the one of the task state with FIN is struck.
fn wide(random: &mut Random) -> Case {
    let asked = requests(random, 450);
    let granted = grants(random, &asked);
    let demand: Vec<Row> = asked.iter().map(|&set| row(1, set, random.chance(1, 16) as usize)).collect();
    let supply = granted.iter().map(|&set| row(1, set, !ends(&demand, set) as usize)).collect();
    case("one state with 450 rows", table(DEMAND, 2, demand), table(SUPPLY, 2, supply))
}

/// Cycles of `a` and `b` states, of which the supply has 8 rows a state, beside a task state with 388 rows. The largest of these leads back to that
/// state. The others request six of twelve resources and lead into the cycle; none of them lies inside another, and none is maximal, since the largest
/// holds them all. So every pair of the wide state is kept, and every round strikes a pair to which one of its rows leads.
fn beside_wide(a: usize, b: usize, random: &mut Random) -> Case {
    let wide = a + 1;
    let mut demand = cycle_rows(DEMAND, a, 1);
    demand.extend([row(wide, 0, wide), row(wide, OFFERED, wide)]);
    let mut sets: Vec<u16> = (0..=OFFERED).filter(|set| set.count_ones() == 6).collect();
    for _ in 0..386 {
        let set = sets.swap_remove(random.below(sets.len()));
        demand.push(row(wide, set, random.between(1, a)));
    }
    let name = format!("cycles of {a} and {b} beside a wide state");
    let asked = question(table(DEMAND, a + 2, demand), cycle(SUPPLY, b, 8));
    Case { name, in_series: true, asked }
}

/// The tables on which Reach is measured.
pub fn reach_cases() -> Vec<Case> {
    let random = &mut Random::new(2);
    let mut all = vec![case("64 × 64, 4 resources, the start in cycles of 3 and 5", beside_cycle(random, DEMAND, 3), beside_cycle(random, SUPPLY, 5))];
    all.push(case("64 × 64, 4 resources, the start on the way to FIN", to_fin(random, DEMAND, 4), to_fin(random, SUPPLY, 4)));
    for each in [3, 8] {
        let name = format!("64 × 64, {each} rows a state, all reached");
        all.push(case(&name, onward(random, DEMAND, each), onward(random, SUPPLY, each)));
    }
    all.push(case("cycles of 63 and 62, nothing requested", turns(DEMAND, 63), turns(SUPPLY, 62)));
    all.push(wide(random));
    all.push(case("cycles of 63 and 62", cycle(DEMAND, 63, 1), cycle(SUPPLY, 62, 1)));
    all.push(case("64 × 64, 4 resources", spread(random, DEMAND, 64, 512, 4), spread(random, SUPPLY, 64, 512, 4)));
    all
}

/// Random rows for 64 states, 512 in all, in place of which the states below `apart` have other rows.
fn beside(random: &mut Random, kind: u8, apart: usize, rows: Vec<Row>) -> Table {
    let mut made = spread(random, kind, 64, 512, 4);
    made.rows.retain(|row| apart <= row.from as usize);
    made.rows.extend(rows);
    table(kind, 64, made.rows)
}

/// A cycle of the states 1 to `length` that requests or grants nothing, beside random rows.
fn beside_cycle(random: &mut Random, kind: u8, length: usize) -> Table {
    let rows = (1..=length).map(|state| row(state, 0, state % length + 1)).collect();
    beside(random, kind, length + 1, rows)
}

/// A chain from state 1 to FIN of `length` states, each of which requests {0} or {1}, or grants either, beside random rows.
fn to_fin(random: &mut Random, kind: u8, length: usize) -> Table {
    let rows = (1..=length).flat_map(|state| [1, 2].map(|set| row(state, set, (state + 1) % (length + 1)))).collect();
    beside(random, kind, length + 1, rows)
}

/// A cycle of the states 1 to `length` that requests or grants nothing.
fn turns(kind: u8, length: usize) -> Table {
    table(kind, length + 1, (1..=length).map(|state| row(state, 0, state % length + 1)).collect())
}

/// 64 states with `each` rows, which request or grant nothing and lead on, to FIN, back, and anywhere: from the start all pairs are reached.
fn onward(random: &mut Random, kind: u8, each: usize) -> Table {
    let mut rows = Vec::new();
    for state in 1..64 {
        let mut targets = vec![state % 63 + 1, 0, state];
        while targets.len() < each {
            let target = random.below(64);
            if !targets.contains(&target) {
                targets.push(target);
            }
        }
        rows.extend(targets.into_iter().map(|target| row(state, 0, target)));
    }
    table(kind, 64, rows)
}
