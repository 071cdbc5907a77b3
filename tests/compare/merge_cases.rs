//! Questions for Merge, by change request L9, and what is told of a call of Merge.

use crate::calls::{join_at_limit, likely_question};
use crate::drafts::{
    draft, file_of, odd_tables, random_style, random_table, random_tables, tables_in_any_order,
    Draft, Style, SUPPLY,
};
use crate::file::{open, MOST_ROWS, MOST_STATES};
use crate::merge::{rows_of_pair, sides, Pairs};
use crate::question::{Operation, Question};
use crate::random::Random;
use crate::rules::FIN;
use std::collections::BTreeSet;

/// How often tables are drawn at most, until a merge is of the sort sought.
const DRAWS: usize = 100;

/// What is told of a merge that is carried out; one may count at several.
pub const MERGES: [&str; 8] = [
    "a pair without FIN live and another one dropped in round 2 or later",
    "pairs dropped in three rounds or more",
    "a row of a live pair left out, since it leads to a dead one",
    "a row kept beside FIN that leads to a dead pair",
    "equal rows become one",
    "a table with itself, and a live pair without FIN",
    "64 states",
    "more than 512 rows, were those to dead pairs not left out",
];
/// The first of these are sought in small tables.
const SOUGHT: usize = 6;

/// A file and a question for Merge: one of each of the first sorts of `MERGES` in turn;
/// two at a limit; one with many rows to dead pairs, or with pairs that are dropped one
/// after the other; one on tables of any sort.
pub fn merge_question(random: &mut Random, turn: usize) -> (Vec<u8>, Question) {
    let round = turn / (SOUGHT + 4);
    let (file, mut question) = match turn % (SOUGHT + 4) {
        sought if sought < SOUGHT => sought_question(random, sought),
        SOUGHT => join_at_limit(random, 2 * round, Operation::Merge),
        7 => join_at_limit(random, 2 * round + 1, Operation::Merge),
        8 => about_two(random, [rows_to_dead_pairs, rings][round % 2]),
        _ => about(random, [tables_of_any_sort, tables_in_any_order][round % 2]),
    };
    set_what_is_not_read(random, &mut question);
    (file, question)
}

/// Puts any numbers in place of the mode, the states, the second length and the set.
fn set_what_is_not_read(random: &mut Random, question: &mut Question) {
    let mut any = || random.pick(&[0, 1, 99, 65_535, usize::MAX]);
    question.mode = any();
    (question.demand_state, question.supply_state) = (any(), any());
    question.second_length = any().min(65_535);
    question.set = any();
}

fn sought_question(random: &mut Random, sought: usize) -> (Vec<u8>, Question) {
    let mut drawn = about(random, small_supplies);
    for _ in 1..DRAWS {
        let (file, question) = &drawn;
        if sorts_of_merge(question, file)[sought] {
            break;
        }
        drawn = about(random, small_supplies);
    }
    drawn
}

/// A question about tables that are made for it.
fn about(random: &mut Random, tables: fn(&mut Random) -> Vec<Draft>) -> (Vec<u8>, Question) {
    let file = file_of(&tables(random));
    let question = likely_question(random, &file, Operation::Merge);
    (file, question)
}

/// A question about two tables that are made for it, not about one with itself.
fn about_two(random: &mut Random, tables: fn(&mut Random) -> Vec<Draft>) -> (Vec<u8>, Question) {
    loop {
        let (file, question) = about(random, tables);
        if question.first_table != question.second_table {
            return (file, question);
        }
    }
}

/// Two or three supplies of few states that grant little; some states are stuck.
fn small_supplies(random: &mut Random) -> Vec<Draft> {
    let style = Style {
        resources: random.between(1, 5),
        granted: random.between(1, 4),
        supply_stuck: random.pick(&[0, 4, 16]),
        supply_ends: random.pick(&[0, 1, 2]),
        most_rows: random.between(1, 4),
        ..random_style(random)
    };
    let count = random.between(2, 3);
    let states: Vec<usize> = (0..count).map(|_| random.between(1, 5)).collect();
    states.into_iter().map(|states| random_table(random, SUPPLY, states, style)).collect()
}

fn tables_of_any_sort(random: &mut Random) -> Vec<Draft> {
    let mut tables = odd_tables(random);
    tables.extend(random_tables(random));
    tables.extend(odd_tables(random));
    tables
}

/// Up to 256 rows beside up to 256 that share no resource, of the first all or all but a
/// few to a stuck state: what these make together leads to dead pairs.
fn rows_to_dead_pairs(random: &mut Random) -> Vec<Draft> {
    let counts = [random.between(200, 256), random.between(40, 256)];
    let stuck = 2;
    let mut first: Vec<(usize, usize, u16)> =
        (0..counts[0]).map(|set| (1, stuck, set as u16)).collect();
    let second: Vec<(usize, usize, u16)> =
        (0..counts[1]).map(|set| (1, random.below(2), 256 * set as u16)).collect();
    for set in 0..random.pick(&[0, 0, 0, 1, 2]) {
        first.push((1, random.below(2), set as u16));
    }
    vec![draft(SUPPLY, 3, &first), draft(SUPPLY, 2, &second)]
}

/// Two rings of states, of each of which one state grants resource 0: the pairs without
/// FIN lie on cycles, and those on the cycle of the pair that shares 0 are dropped one
/// after the other. Some rows lead elsewhere.
fn rings(random: &mut Random) -> Vec<Draft> {
    let elsewhere = random.pick(&[0, 0, 1, 3]);
    let mut ring = |length: usize, resource: u16| {
        let granting = random.between(1, length);
        let mut rows = Vec::new();
        for state in 1..=length {
            let set = if state == granting { 1 } else { 0 };
            rows.push((state, state % length + 1, set | resource));
            if random.chance(elsewhere, 16) {
                rows.push((state, random.between(0, length), set));
            }
        }
        draft(SUPPLY, length + 1, &rows)
    };
    vec![ring(7, 2), ring(6, 4)]
}

/// Which of `MERGES` a call is; none where it is turned back before rows are counted.
pub fn sorts_of_merge(question: &Question, file: &[u8]) -> [bool; MERGES.len()] {
    let tables = open(file).unwrap_or_default();
    let asked = (tables.get(question.first_table), tables.get(question.second_table));
    let (Some(first), Some(second)) = asked else {
        return [false; MERGES.len()];
    };
    if first.states * second.states > MOST_STATES {
        return [false; MERGES.len()];
    }
    let rounds = Pairs::of(first, second).rounds();
    let dead = |pair: usize| rounds[pair] > 0;
    let of_pairs = (0..rounds.len()).map(|pair| rows_of_pair(first, second, pair));
    let all: Vec<_> = of_pairs.collect();
    let is_beside_fin = |pair: usize| {
        let (a, b) = sides(second, pair);
        a == FIN || b == FIN
    };
    let some = |is_sought: &dyn Fn(usize) -> bool| (0..rounds.len()).any(is_sought);
    let to_dead = |pair: usize| all[pair].iter().any(|row| dead(row.target as usize));
    let distinct: Vec<BTreeSet<_>> = all.iter().map(|rows| rows.iter().collect()).collect();
    [
        some(&|pair| !is_beside_fin(pair) && !dead(pair)) && some(&|pair| rounds[pair] > 1),
        some(&|pair| rounds[pair] > 2),
        some(&|pair| !is_beside_fin(pair) && !dead(pair) && to_dead(pair)),
        some(&|pair| is_beside_fin(pair) && to_dead(pair)),
        some(&|pair| !dead(pair) && distinct[pair].len() < all[pair].len()),
        question.first_table == question.second_table
            && some(&|pair| !is_beside_fin(pair) && !dead(pair)),
        rounds.len() == MOST_STATES,
        distinct.iter().map(BTreeSet::len).sum::<usize>() > MOST_ROWS,
    ]
}
