//! Questions to which standing resources matter, by change request L5, and what is
//! told of a question that has some.

use crate::answers::{answer, Answer};
use crate::calls::likely_question;
use crate::drafts::{draft, file_of, random_style, random_table, Draft, DEMAND, SUPPLY};
use crate::file::{open, Row, Table};
use crate::question::{Operation, Question, STANDING_OPERATIONS};
use crate::random::Random;
use crate::reach::reached;
use crate::rules::{combined_moves, marks, Mode, Pair, Tables, FIN};

/// How often tables are drawn at most, until the standing set does what is sought.
const DRAWS: usize = 100;

/// A file and a question of one of the six operations in turn. Sought is a set that
/// turns a no into a yes or a yes into a no, by turns and in both modes; for Moves one
/// by which other moves survive, or supply rows become alike; for Graph any; for Reach
/// one that turns its answer, or changes the count of a yes.
pub fn standing_question(random: &mut Random, turn: usize) -> (Vec<u8>, Question) {
    let operation = STANDING_OPERATIONS[turn % STANDING_OPERATIONS.len()];
    let round = turn / STANDING_OPERATIONS.len();
    let mut drawn = drawn_question(random, operation);
    for _ in 1..DRAWS {
        let (file, question) = &drawn;
        if does_what_is_sought(file, question, round) {
            break;
        }
        drawn = drawn_question(random, operation);
    }
    drawn
}

/// Small tables. Beside some demand rows stands one that requests a resource more and
/// leads to a stuck state, beside some supply rows one that differs in that resource.
fn drawn_question(random: &mut Random, operation: Operation) -> (Vec<u8>, Question) {
    let style = random_style(random);
    let resource = 1 << random.below(4);
    let (stuck, supply_states) = (random.between(2, 4), random.between(1, 4));
    let demand = random_table(random, DEMAND, stuck, style);
    let demand = with_second_rows(random, &demand, stuck + 1, |row| (stuck, row.set | resource));
    let supply = random_table(random, SUPPLY, supply_states, style);
    let supply = with_second_rows(random, &supply, supply_states, |row| {
        (row.target as usize, row.set ^ resource)
    });
    let file = file_of(&[demand, supply]);
    let question = likely_question(random, &file, operation);
    (file, question)
}

/// The table with so many states, and with another row beside one row in three.
pub fn with_second_rows(
    random: &mut Random,
    table: &Draft,
    states: usize,
    second: impl Fn(&Row) -> (usize, u16),
) -> Draft {
    let mut rows = Vec::new();
    for row in &table.rows {
        rows.push((row.from as usize, row.target as usize, row.set));
        if random.chance(1, 3) {
            let (target, set) = second(row);
            rows.push((row.from as usize, target, set));
        }
    }
    draft(table.kind, states, &rows)
}

/// Whether the standing set does what is sought in this round.
fn does_what_is_sought(file: &[u8], question: &Question, round: usize) -> bool {
    let all = open(file).unwrap_or_default();
    let Some((tables, pair)) = asked_about(question, &all) else {
        return false;
    };
    let first = round % 2 == 0;
    let plain = Tables { standing: 0, ..tables };
    match question.operation {
        Operation::Graph => true,
        Operation::Reach => match (reached(tables, pair), reached(plain, pair)) {
            (Some(_), None) => round % 3 == 0,
            (None, Some(_)) => round % 3 == 1,
            (one, other) => round % 3 == 2 && one != other,
        },
        Operation::Moves if first => others_survive(tables, pair),
        Operation::Moves => rows_became_alike(tables, pair),
        _ => {
            let place = round / 2 % 2;
            let mode = [Mode::Full, Mode::Partial][place];
            let yes = |tables: Tables| marks(tables, mode)[tables.entry(pair)] == 0;
            question.mode == place && yes(tables) == first && yes(plain) != first
        }
    }
}

/// The tables of a question with its standing set, and its pair, where there are
/// such tables and states.
pub fn asked_about<'a>(question: &Question, all: &'a [Table]) -> Option<(Tables<'a>, Pair)> {
    let (demand, supply) = (all.get(question.first_table)?, all.get(question.second_table)?);
    let pair = Pair { demand: question.demand_state, supply: question.supply_state };
    let there = pair.demand < demand.states && pair.supply < supply.states;
    there.then_some((Tables { demand, supply, standing: question.resources() }, pair))
}

/// Whether by the standing set other task moves survive beside some supply move.
fn others_survive(tables: Tables, pair: Pair) -> bool {
    let survivors = |tables| -> Vec<(u16, usize, usize)> {
        let all = combined_moves(tables, pair);
        let requested =
            all.iter().map(|one| (one.consumed | one.unmet, one.demand_target, one.supply_target));
        requested.collect()
    };
    survivors(tables) != survivors(Tables { standing: 0, ..tables })
}

/// Whether two supply rows of the pair with one target differ by standing resources
/// only, and the task is not stuck: each of the two rows gives moves.
fn rows_became_alike(tables: Tables, pair: Pair) -> bool {
    let from_here = tables.supply.rows.iter().filter(|row| row.from as usize == pair.supply);
    let widened: Vec<(u16, u8)> =
        from_here.map(|row| (row.set | tables.standing, row.target)).collect();
    let alike = widened.iter().enumerate().any(|(at, one)| widened[..at].contains(one));
    let mut of_task = tables.demand.rows.iter().map(|row| row.from as usize);
    alike && (pair.demand == FIN || of_task.any(|from| from == pair.demand))
}

/// What is told of a call with a standing set.
pub const STANDINGS: [&str; 9] = [
    "with some resources standing",
    "with all 16 standing",
    "changed by them from a supply at FIN",
    "turned from no to yes in full mode",
    "turned from no to yes in partial mode",
    "turned from yes to no in full mode",
    "turned from yes to no in partial mode",
    "with other moves surviving",
    "with supply rows that became alike",
];

const DECIDING_IN_FULL_MODE: [Operation; 3] =
    [Operation::Decide, Operation::Run, Operation::Reach];

/// Whether a sort of `STANDINGS` has to come for an operation.
pub fn has_to_come(sort: usize, operation: Operation) -> bool {
    match sort {
        0..=2 => true,
        3 | 5 => DECIDING_IN_FULL_MODE.contains(&operation),
        4 | 6 => [Operation::Decide, Operation::Run].contains(&operation),
        7 => operation == Operation::Moves,
        _ => operation != Operation::Decide,
    }
}

/// Which of `STANDINGS` a call that was carried out is, by holding its answer to that
/// of the same call with nothing standing.
pub fn sorts_of(question: &Question, file: &[u8], came: &Answer) -> [bool; STANDINGS.len()] {
    let all = open(file).unwrap_or_default();
    let found = asked_about(question, &all).filter(|(tables, _)| tables.standing != 0);
    let Some((tables, pair)) = found.filter(|_| came.number == Some(0)) else {
        return [false; STANDINGS.len()];
    };
    let plain = answer(&Question { set: 0, ..*question }.before(file));
    let turned = |mode: Mode, yes: bool| match (&came.decisions[..], &plain.decisions[..]) {
        ([one], [other]) => one.mode == mode && one.yes == yes && other.yes != yes,
        _ => false,
    };
    [
        true,
        tables.standing == u16::MAX,
        pair.supply == FIN && came.text != plain.text,
        turned(Mode::Full, true),
        turned(Mode::Partial, true),
        turned(Mode::Full, false),
        turned(Mode::Partial, false),
        question.operation == Operation::Moves && others_survive(tables, pair),
        rows_became_alike(tables, pair),
    ]
}
