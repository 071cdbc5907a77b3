//! Random files on which the engines are held equal: mostly small tables, with stuck states, tables without rows, few and many resources, rows with
//! equal sets and several targets, and files with more tables than the two that are asked about.

use crate::engines::Question;
use crate::file::{file, row, table, Row, Table, DEMAND, MOST_ROWS, SUPPLY};
use crate::random::Random;

/// How the rows of a table are made.
struct Shape {
    states: usize,
    rows: usize,
    resources: usize,
    /// The parts in eight of the states that get no row.
    stuck: usize,
    /// The parts in eight of the rows that request or grant nothing.
    empty: usize,
    /// The parts in eight of the rows that repeat the set of the row before.
    equal: usize,
    /// The parts in eight of the rows that lead to the next state.
    next: usize,
}

fn rows(random: &mut Random, shape: &Shape, kind: u8) -> Vec<Row> {
    let n = shape.states;
    let moving: Vec<usize> = (1..n).filter(|_| !random.chance(shape.stuck, 8)).collect();
    let mut made: Vec<Row> = Vec::new();
    for i in 0..shape.rows {
        let Some(&from) = moving.get(if i < moving.len() { i } else { random.below(moving.len().max(1)) }) else {
            break;
        };
        let mut set = random.set(shape.resources);
        if kind == SUPPLY && random.chance(1, 2) {
            set |= random.set(shape.resources);
        }
        if random.chance(shape.empty, 8) {
            set = 0;
        }
        let mut chosen = row(from, set, random.below(n));
        if random.chance(shape.next, 8) {
            chosen.target = (from % (n - 1) + 1) as u8;
        }
        if let Some(last) = made.last().filter(|_| random.chance(shape.equal, 8)) {
            (chosen.from, chosen.set) = (last.from, last.set);
        }
        made.push(chosen);
    }
    made
}

fn draft(random: &mut Random, kind: u8, most_states: usize, most_rows: usize) -> Table {
    let states = match random.below(4) {
        0 => random.between(1, most_states),
        1 => most_states,
        _ => random.between(most_states.div_ceil(2), most_states),
    };
    let parts = |random: &mut Random| if random.chance(1, 2) { 0 } else { random.between(1, 4) };
    let shape = Shape {
        states,
        rows: match random.below(12) {
            0 => 0,
            1..=3 => states,
            _ => random.between(states, most_rows),
        },
        resources: if random.chance(2, 3) { random.between(1, 4) } else { random.between(5, 16) },
        stuck: if random.chance(2, 3) { 0 } else { 1 },
        empty: parts(random),
        equal: parts(random),
        next: if random.chance(1, 4) { 8 } else { parts(random) },
    };
    table(kind, states, rows(random, &shape, kind))
}

/// The sizes of the tables of the i-th file: the most states, and the most rows.
fn size(i: usize, random: &mut Random) -> (usize, usize) {
    match i % 100 {
        0 => (64, MOST_ROWS),
        1..=8 => (16, random.between(16, 128)),
        9..=24 => (8, random.between(8, 80)),
        _ => (random.between(1, 8), 24),
    }
}

/// The i-th file, with a question about two of its tables.
pub fn draft_question(i: usize, random: &mut Random) -> Question {
    let (states, rows) = size(i, random);
    let mut tables = vec![draft(random, DEMAND, states, rows), draft(random, SUPPLY, states, rows)];
    let (mut demand, mut supply) = (0, 1);
    if random.chance(1, 4) {
        tables.swap(0, 1);
        (demand, supply) = (1, 0);
    }
    if random.chance(1, 4) {
        let kind = if random.chance(1, 2) { DEMAND } else { SUPPLY };
        tables.insert(0, draft(random, kind, 8, 16));
        (demand, supply) = (demand + 1, supply + 1);
    }
    let state = random.below(tables[demand].states.min(tables[supply].states));
    Question { file: file(&tables), demand, supply, state }
}
