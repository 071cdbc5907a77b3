//! Questions for `calls_test`: right ones, ones with faults, ones at the limits
//! of joining, of moves and of triples, reports, and graphs.

use crate::drafts::{draft, file_of, table_with_rows, Draft, DEMAND, SUPPLY};
use crate::file::{open, Kind, Table, MOST_STATES};
use crate::graph::graph;
use crate::merge::merge;
use crate::pick::picked;
use crate::question::{Operation, Question, STANDING_OPERATIONS};
use crate::random::Random;
use crate::report::report;
use crate::rules::{combined_moves, explain, join, marks, Mode, Pair, Tables, FIN};
use crate::sets::{any_set, common_set, standing_set};

/// The longest slice that a question can ask for.
pub const LONGEST_SLICE: usize = 65_535;

/// The faults that a question can have.
#[derive(Clone, Copy)]
pub enum Fault {
    FirstTable,
    SecondTable,
    FirstKind,
    SecondKind,
    DemandState,
    SupplyState,
    Mode,
    FirstLength,
    SecondLength,
}

/// The faults in the order in which the calls look for them.
const ALL_FAULTS: [Fault; 9] = [
    Fault::FirstTable,
    Fault::SecondTable,
    Fault::FirstKind,
    Fault::SecondKind,
    Fault::DemandState,
    Fault::SupplyState,
    Fault::Mode,
    Fault::FirstLength,
    Fault::SecondLength,
];

/// Every operation with every fault that makes it turn back, and more: Join and Merge
/// get wrong states and a wrong mode too, Moves, Graph and Reach a wrong mode, and Pick a
/// wrong second table and wrong states. This is meant: they must ignore them.
pub fn operations_and_faults() -> Vec<(Operation, Fault)> {
    let mut all =
        vec![(Operation::Body, Fault::FirstTable), (Operation::Report, Fault::FirstLength)];
    for (operation, faults) in [
        (Operation::Moves, 8),
        (Operation::Decide, 8),
        (Operation::Run, 9),
        (Operation::Join, 8),
        (Operation::Graph, 8),
        (Operation::Explain, 9),
        (Operation::Pick, 8),
        (Operation::Reach, 7),
        (Operation::Merge, 8),
    ] {
        all.extend(ALL_FAULTS[..faults].iter().map(|fault| (operation, *fault)));
    }
    all
}

/// A question that the file mostly allows; only the lengths may be too short and
/// the mode wrong.
pub fn likely_question(random: &mut Random, file: &[u8], operation: Operation) -> Question {
    let mut question = exact_question(random, file, operation);
    question.first_length = length_near(random, question.first_length);
    if [Operation::Run, Operation::Explain].contains(&operation) {
        question.second_length = length_near(random, question.second_length);
    }
    if random.chance(1, 32) {
        question.mode = random.pick(&[2, 255, 256, usize::MAX]);
    }
    question
}

/// A question with slices exactly as long as the call asks for.
fn exact_question(random: &mut Random, file: &[u8], operation: Operation) -> Question {
    let tables = &open(file).unwrap_or_default();
    let [first_kind, second_kind] = kinds_taken(operation);
    let any_table = random.below(tables.len().max(1));
    let first_table = match operation {
        Operation::Body => any_table,
        _ => table_of_kind(random, tables, first_kind),
    };
    let second_table = match operation {
        Operation::Join | Operation::Merge if random.chance(1, 4) => first_table,
        _ => table_of_kind(random, tables, second_kind),
    };
    let from_start = random.chance(1, 2);
    let demand_state = random_state(random, tables.get(first_table), from_start);
    let supply_state = match random.chance(1, 8) {
        true => FIN,
        false => random_state(random, tables.get(second_table), from_start),
    };
    let mut question = Question {
        operation,
        mode: random.below(2),
        first_table,
        demand_state,
        second_table,
        supply_state,
        first_length: random.below(40),
        second_length: 0,
        set: any_set(random),
    };
    if let (Some(first), Some(second)) = (tables.get(first_table), tables.get(second_table)) {
        question.set = set_for(random, operation, first, second);
        set_exact_lengths(&mut question, first, second);
    }
    set_length_by_file(&mut question, file, tables);
    question
}

/// The kinds of the tables that a call takes.
fn kinds_taken(operation: Operation) -> [Kind; 2] {
    match operation {
        Operation::Join => [Kind::Demand; 2],
        Operation::Merge => [Kind::Supply; 2],
        _ => [Kind::Demand, Kind::Supply],
    }
}

/// The set of resources for a call on two tables.
fn set_for(random: &mut Random, operation: Operation, first: &Table, second: &Table) -> usize {
    if operation == Operation::Join {
        return common_set(random, first, second);
    }
    if STANDING_OPERATIONS.contains(&operation) || operation == Operation::Pick {
        return standing_set(random, first, second);
    }
    any_set(random)
}

/// The exact length for Report and for Pick, which read the whole file; for Pick where
/// there is a demand with that number.
pub fn set_length_by_file(question: &mut Question, file: &[u8], tables: &[Table]) {
    let table = tables.get(question.first_table);
    match (question.operation, table.filter(|table| table.kind == Kind::Demand)) {
        (Operation::Report, _) => question.first_length = length_of_report(file),
        (Operation::Pick, Some(demand)) => {
            let listed = picked(tables, demand, mode_asked(question), question.resources());
            question.first_length = listed.len();
        }
        _ => {}
    }
}

/// The mode of a question, which is partial where the number is wrong.
pub fn mode_asked(question: &Question) -> Mode {
    if question.mode == 0 {
        Mode::Full
    } else {
        Mode::Partial
    }
}

/// The length of the text of `slots`, as far as a slice can be that long.
fn length_of_report(file: &[u8]) -> usize {
    report(file).text.len().min(LONGEST_SLICE)
}

/// The number of some table of a kind; any number where there is none.
fn table_of_kind(random: &mut Random, tables: &[Table], kind: Kind) -> usize {
    let numbers: Vec<usize> =
        (0..tables.len()).filter(|number| tables[*number].kind == kind).collect();
    if numbers.is_empty() {
        return random.below(tables.len() + 1);
    }
    random.pick(&numbers)
}

fn random_state(random: &mut Random, table: Option<&Table>, from_start: bool) -> usize {
    let states = table.map_or(4, |table| table.states);
    if from_start && states > 1 {
        return 1;
    }
    match random.below(4) {
        0 => states - 1,
        _ => random.below(states),
    }
}

fn set_exact_lengths(question: &mut Question, first: &Table, second: &Table) {
    let count_of_pairs = first.states * second.states;
    let tables = Tables { demand: first, supply: second, standing: question.resources() };
    let pair = Pair { demand: question.demand_state, supply: question.supply_state };
    match question.operation {
        Operation::Moves => {
            let count = combined_moves(tables, pair).len();
            question.first_length = (5 * count).min(LONGEST_SLICE);
        }
        Operation::Decide => question.first_length = count_of_pairs,
        Operation::Run => {
            question.first_length = count_of_pairs;
            question.second_length = 2 * count_of_pairs;
        }
        Operation::Join | Operation::Merge if count_of_pairs <= MOST_STATES => {
            let rows = match question.operation {
                Operation::Join => join(first, second, question.resources()),
                _ => merge(first, second),
            };
            question.first_length = (4 * rows.len()).min(LONGEST_SLICE);
        }
        Operation::Graph => {
            question.first_length = graph(tables, pair).text().len().min(LONGEST_SLICE);
        }
        Operation::Explain => {
            let mode = mode_asked(question);
            let count = explain(tables, mode, &marks(tables, mode), pair).len();
            question.first_length = count_of_pairs;
            question.second_length = (3 * count).min(LONGEST_SLICE);
        }
        _ => {}
    }
}

/// The exact length, mostly; or one less, none, somewhat more, far more.
fn length_near(random: &mut Random, exact: usize) -> usize {
    let length = match random.below(32) {
        0..=15 => exact,
        16..=27 => exact + random.between(1, 20),
        28 => exact.saturating_sub(1),
        29 => 0,
        30 => exact + random.between(400, 2000),
        _ if random.chance(1, 8) => LONGEST_SLICE,
        _ => exact + random.between(2000, 5000),
    };
    length.min(LONGEST_SLICE)
}

/// A question with the given fault, and by chance with others too: with such as
/// are looked for later, or with any.
pub fn faulty_question(
    random: &mut Random,
    file: &[u8],
    operation: Operation,
    fault: Fault,
    alone: bool,
) -> Question {
    let tables = open(file).unwrap_or_default();
    let mut question = exact_question(random, file, operation);
    add_fault(random, &mut question, &tables, fault);
    let only_later = random.chance(3, 4);
    for other in ALL_FAULTS {
        let wanted = !only_later || other as usize > fault as usize;
        if !alone && wanted && random.chance(1, 3) {
            add_fault(random, &mut question, &tables, other);
        }
    }
    question
}

fn add_fault(random: &mut Random, question: &mut Question, tables: &[Table], fault: Fault) {
    let [first_wrong, second_wrong] = kinds_taken(question.operation).map(|kind| match kind {
        Kind::Demand => Kind::Supply,
        Kind::Supply => Kind::Demand,
    });
    match fault {
        Fault::FirstTable => question.first_table = beyond(random, tables.len()),
        Fault::SecondTable => question.second_table = beyond(random, tables.len()),
        Fault::FirstKind => question.first_table = table_of_kind(random, tables, first_wrong),
        Fault::SecondKind => question.second_table = table_of_kind(random, tables, second_wrong),
        Fault::DemandState => {
            let states = tables.get(question.first_table).map_or(4, |table| table.states);
            question.demand_state = beyond(random, states);
        }
        Fault::SupplyState => {
            let states = tables.get(question.second_table).map_or(4, |table| table.states);
            question.supply_state = beyond(random, states);
        }
        Fault::Mode => question.mode = random.pick(&[2, 3, 128, 255, 256, usize::MAX - 1, usize::MAX]),
        Fault::FirstLength => question.first_length = under(random, question.first_length),
        Fault::SecondLength => question.second_length = under(random, question.second_length),
    }
}

/// A number not below the limit: the limit itself, or one more, or far above.
fn beyond(random: &mut Random, limit: usize) -> usize {
    let inside = random.below(limit.max(1));
    let far = random.pick(&[65_535, 65_536 + inside, (1 << 32) + inside, usize::MAX]);
    random.pick(&[limit, limit, limit + 1, limit.max(64), 256 + inside, far])
}

/// A length under the exact one: one less, or none, or any.
fn under(random: &mut Random, exact: usize) -> usize {
    if exact == 0 {
        return 0;
    }
    let any = random.below(exact);
    random.pick(&[exact - 1, exact - 1, 0, any])
}

/// How many joins or merges `join_at_limit` makes.
const JOINS: usize = 20;
/// From this one on, all rows of both tables have resource 15: the join comes to
/// the limit where that is common.
const FIRST_SHARING: usize = 16;

/// Two demand tables whose join is at a limit, one past it, or has equal rows.
/// `which` counts below `JOINS`.
fn tables_to_join(random: &mut Random, which: usize) -> [Draft; 2] {
    let of_states = |states: usize| draft(DEMAND, states, &[(1, 0, 1), (states - 1, 1, 2)]);
    match which {
        0 => [of_states(8), of_states(8)],
        1 => [of_states(8), of_states(9)],
        2 => [of_states(64), draft(DEMAND, 1, &[])],
        3 => [of_states(64), of_states(2)],
        4 => [draft(DEMAND, 1, &[]), of_states(64)],
        5 => [of_states(13), of_states(5)],
        6 => [sharing_rows(random, 300), sharing_rows(random, 212)],
        7 => [sharing_rows(random, 300), sharing_rows(random, 213)],
        8 => [apart_rows(26, 0), apart_rows(18, 8)],
        9 => [apart_rows(1, 0), apart_rows(256, 8)],
        10 => [subsets(128, 0), subsets(128, 64)],
        11 => [subsets(127, 0), subsets(128, 65)],
        12 => [subsets(128, 0), subsets(128, 0)],
        13 => [table_with_rows(random, DEMAND, 8, 512), draft(DEMAND, 1, &[])],
        14 => [table_with_rows(random, DEMAND, 8, 512), draft(DEMAND, 2, &[(1, 1, 1)])],
        15 => [table_with_rows(random, DEMAND, 3, 512), table_with_rows(random, DEMAND, 3, 512)],
        16 => [apart_rows(26, 0), apart_rows(18, 8)].map(sharing),
        17 => [apart_rows(1, 0), apart_rows(256, 7)].map(sharing),
        18 => [subsets(127, 0), subsets(128, 65)].map(sharing),
        _ => [subsets(128, 0), subsets(128, 64)].map(sharing),
    }
}

/// The table with resource 15 in all its rows, of which none has it yet.
fn sharing(mut table: Draft) -> Draft {
    for row in &mut table.rows {
        row.set |= 32_768;
    }
    table
}

/// So many rows from state 1 to FIN that all request resource 15: two such
/// tables have no two moves with sets that share nothing, but for FIN's.
fn sharing_rows(random: &mut Random, count: usize) -> Draft {
    let first = random.below(1000);
    let rows: Vec<(usize, usize, u16)> =
        (0..count).map(|index| (1, 0, 32_768 + (first + 7 * index) as u16)).collect();
    draft(DEMAND, 2, &rows)
}

/// So many rows from state 1 to FIN, with sets of the resources from `lowest`
/// to `lowest` + 7.
fn apart_rows(count: usize, lowest: usize) -> Draft {
    let rows: Vec<(usize, usize, u16)> =
        (0..count).map(|index| (1, 0, (index as u16) << lowest)).collect();
    draft(DEMAND, 2, &rows)
}

/// The first `count` subsets of resources 0 to 6, and `more` sets that hold all
/// of these and others: joining makes many equal rows.
fn subsets(count: usize, more: usize) -> Draft {
    let mut rows: Vec<(usize, usize, u16)> = (0..count).map(|set| (1, 0, set as u16)).collect();
    rows.extend((1..=more).map(|index| (1, 0, 127 + 128 * index as u16)));
    draft(DEMAND, 2, &rows)
}

/// A join at a limit, or a merge of the same tables as supplies: the file, and a
/// question with the exact length of the slice, or one too short, or one somewhat longer.
pub fn join_at_limit(
    random: &mut Random,
    turn: usize,
    operation: Operation,
) -> (Vec<u8>, Question) {
    let which = turn % JOINS;
    let mut tables = tables_to_join(random, which);
    if operation == Operation::Merge {
        tables = tables.map(|table| Draft { kind: SUPPLY, ..table });
    }
    let file = file_of(&tables);
    let opened = open(&file).unwrap_or_default();
    let mut question = exact_question(random, &file, operation);
    question.first_table = 0;
    question.second_table = 1;
    if random.chance(1, 4) {
        (question.first_table, question.second_table) = (1, 0);
    }
    let [first, second] = [&opened[question.first_table], &opened[question.second_table]];
    question.set = common_set(random, first, second);
    if which >= FIRST_SHARING {
        question.set |= 32_768;
    }
    set_exact_lengths(&mut question, first, second);
    match (turn / JOINS) % 3 {
        0 => {}
        1 => question.first_length = under(random, question.first_length),
        _ => question.first_length = (question.first_length + 9).min(LONGEST_SLICE),
    }
    (file, question)
}

/// How many questions `wide_moves` makes.
pub const WIDE: usize = 8;

/// Moves of a pair with very many moves: around the longest slice, and with
/// five times the count at or above 65,536. Resource 0, which may stand, is one that
/// no demand of the first six requests. `which` counts below `WIDE`.
pub fn wide_moves(random: &mut Random, which: usize) -> (Vec<u8>, Question) {
    let (demand, supply, length) = match which {
        0 => (unmet_rows(257), granting_rows(51), 65_535),
        1 => (unmet_rows(257), granting_rows(51), 65_534),
        2 => (unmet_rows(113), granting_rows(116), 65_535),
        3 => (unmet_rows(113), granting_rows(116), 4),
        4 => (unmet_rows(512), granting_rows(128), 0),
        5 => (apart_rows(256, 8), granting_rows(128), 65_535),
        6 => (table_with_rows(random, DEMAND, 2, 512), granting_rows(3), 2_000),
        _ => (apart_rows(200, 4), table_with_rows(random, SUPPLY, 2, 60), 20_000),
    };
    let question = Question {
        operation: Operation::Moves,
        mode: random.below(3),
        first_table: 1,
        demand_state: 1,
        second_table: 0,
        supply_state: 1,
        first_length: length,
        second_length: 0,
        set: random.below(2),
    };
    (file_of(&[supply, demand]), question)
}

/// So many rows from state 1 that all request a resource other than 0.
fn unmet_rows(count: usize) -> Draft {
    let rows: Vec<(usize, usize, u16)> =
        (0..count).map(|index| (1, index % 2, 2 * (index as u16 + 1))).collect();
    draft(DEMAND, 2, &rows)
}

/// So many rows from state 1, up to 128: 64 that grant nothing, then those that
/// grant resource 0.
fn granting_rows(count: usize) -> Draft {
    let rows: Vec<(usize, usize, u16)> =
        (0..count).map(|index| (1, index % 64, (index / 64) as u16)).collect();
    draft(SUPPLY, 64, &rows)
}

/// How many questions `wide_triples` makes.
pub const WIDE_TRIPLES: usize = 6;

/// Explain of a kept pair with very many triples: around the longest slice, and
/// with three times the count, or the count itself, at or above 65,536; every other
/// time with resources 11 to 15 standing, which make supply rows alike. `which`
/// counts below `WIDE_TRIPLES`.
pub fn wide_triples(which: usize) -> (Vec<u8>, Question) {
    let (demand, supply, second_length) = match which {
        0 => (257, 85, 65_535),
        1 => (257, 85, 65_534),
        2 => (331, 66, 65_535),
        3 => (331, 66, 2),
        4 => (512, 128, 0),
        _ => (512, 42, 65_000),
    };
    let question = Question {
        operation: Operation::Explain,
        mode: 0,
        first_table: 0,
        demand_state: 1,
        second_table: 1,
        supply_state: 1,
        first_length: 10,
        second_length,
        set: which % 2 * 63_488,
    };
    (file_of(&[fitting_rows(demand), holding_rows(supply)]), question)
}

/// So many rows from state 1, with sets of five of resources 0 to 10: none lies
/// strictly inside another.
fn fitting_rows(count: usize) -> Draft {
    let fives = (0..2048).filter(|set: &u16| set.count_ones() == 5);
    let rows = fives.flat_map(|set| [(1, 0, set), (1, 1, set)]).take(count);
    draft(DEMAND, 2, &rows.collect::<Vec<(usize, usize, u16)>>())
}

/// So many rows from state 1, up to 128, that grant resources 0 to 10 and others,
/// to states that lead back to it.
fn holding_rows(count: usize) -> Draft {
    let row = |index: usize| (1, 1 + index / 32, 2047 + 2048 * (index % 32) as u16);
    let mut rows: Vec<(usize, usize, u16)> = (0..count).map(row).collect();
    rows.extend((2..5).map(|state| (state, 1, 2047)));
    draft(SUPPLY, 5, &rows)
}

/// How many lengths `report_question` asks for.
pub const REPORT_LENGTHS: usize = 5;

/// Report with the exact length, one less, none, somewhat more, or far more;
/// `which` counts below `REPORT_LENGTHS`. The rest of the question is random,
/// for nothing else of it matters.
pub fn report_question(random: &mut Random, file: &[u8], which: usize) -> Question {
    let exact = length_of_report(file);
    let length = match which {
        0 => exact,
        1 => exact - 1,
        2 => 0,
        3 => exact + random.between(1, 20),
        _ => random.pick(&[exact + 1000, exact + 4000, LONGEST_SLICE]),
    };
    let set = any_set(random);
    let mut any = || random.below(65_536);
    Question {
        operation: Operation::Report,
        mode: any(),
        first_table: any(),
        demand_state: any(),
        second_table: any(),
        supply_state: any(),
        first_length: length.min(LONGEST_SLICE),
        second_length: any(),
        set,
    }
}
