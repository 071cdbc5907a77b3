//! The calls of exported functions that are made at random, from fixed seeds: the kinds
//! of call in a fixed rotation.

use crate::calls::{faulty_question, likely_question, operations_and_faults};
use crate::cases::in_rotation;
use crate::drafts::{
    branching, cycles_or_chain, file_of, odd_tables, random_tables, table_with_rows,
    tables_in_any_order, DEMAND, SUPPLY,
};
use crate::export_call::{Call, REPORT};
use crate::faults::{
    damaged_file, faulty_file, limit_file, noise, sound_file, two_faults, FAULTS, LIMITS,
    TWO_FAULTS,
};
use crate::file::{MOST_ROWS, MOST_STATES};
use crate::question::{Operation, Question, STANDING_OPERATIONS};
use crate::random::Random;
use crate::standing::standing_question;

/// The operations that are exported.
pub const EXPORTED: [Operation; 3] = [Operation::Open, Operation::Decide, Operation::Run];
/// Those that take a question about two tables.
const DECIDING: [Operation; 2] = [Operation::Decide, Operation::Run];

const MOST_PAIRS: usize = MOST_STATES * MOST_STATES;
/// So many calls of each kind are lent what the question says, and a report.
const PLAIN: usize = 9;

/// A file, and a question with lengths in entries.
type Asked = (Vec<u8>, Question);

/// A kind of call: its name, how often it stands in the rotation, and how to make one.
/// The turn counts the calls of this kind.
struct Kind {
    name: &'static str,
    often: usize,
    make: fn(&mut Random, usize) -> Asked,
}

const fn kind(name: &'static str, often: usize, make: fn(&mut Random, usize) -> Asked) -> Kind {
    Kind { name, often, make }
}

const ROTATION: [Kind; 11] = [
    kind("random tables", 10, random_files),
    kind("branching tables", 4, branching_files),
    kind("odd tables", 4, odd_files),
    kind("cycles and chains", 1, cycles),
    kind("kinds in any order", 2, any_order),
    kind("standing resources", 2, standing),
    kind("file with faults", 8, faulty_files),
    kind("two faults in order", 2, two_faults_in_order),
    kind("damaged file or random bytes", 2, damaged_files),
    kind("file at a limit", 1, limits),
    kind("question with faults", 8, faulty_questions),
];

/// The call with this number, and its kind. The same number always gives the same call.
pub fn call(number: usize) -> (Call, &'static str) {
    let often: Vec<usize> = ROTATION.iter().map(|kind| kind.often).collect();
    let (which, turn) = in_rotation(&often, number);
    let kind = &ROTATION[which];
    let mut random = Random::new(number as u64);
    let (file, mut question) = (kind.make)(&mut random, turn);
    question.set = question.resources() as usize;
    let (marks, steps) = (question.first_length, question.second_length);
    let call = if turn < PLAIN {
        lend(&mut random, file, question, [2 * marks, 2 * steps, REPORT])
    } else {
        lend_otherwise(&mut random, file, question)
    };
    (call, kind.name)
}

/// The call of a question, with marks, steps and a report of so many random bytes.
fn lend(random: &mut Random, file: Vec<u8>, question: Question, lengths: [usize; 3]) -> Call {
    let [marks, steps, report] = lengths.map(|length| Some(random.bytes(length)));
    Call { question, before: [Some(file), marks, steps, report] }
}

/// The call of a question, by chance with other lengths, with a far number, with NULL.
fn lend_otherwise(random: &mut Random, file: Vec<u8>, mut question: Question) -> Call {
    if random.chance(1, 10) {
        set_far_number(random, &mut question);
    }
    let marks = bytes_near(random, question.first_length);
    let steps = bytes_near(random, question.second_length);
    let report = report_length(random);
    let mut call = lend(random, file, question, [marks, steps, report]);
    for slice in &mut call.before {
        if random.chance(1, 32) {
            *slice = None;
        }
    }
    call
}

/// Puts a number far above in place of a table, a state or the mode: one whose lower
/// bits are the right number, or one that has only the highest bit or all bits.
fn set_far_number(random: &mut Random, question: &mut Question) {
    let number = match random.below(5) {
        0 => &mut question.first_table,
        1 => &mut question.second_table,
        2 => &mut question.demand_state,
        3 => &mut question.supply_state,
        _ => &mut question.mode,
    };
    let higher = random.pick(&[1 << 8, 1 << 16, 1 << 32, 1 << 32, 1 << 63, usize::MAX << 32]);
    let right = number.wrapping_add(higher);
    *number = random.pick(&[right, right, right, 1 << 32, 1 << 63, usize::MAX - 1, usize::MAX]);
}

/// The bytes of so many entries, mostly; or one more or one less; or more than any call
/// asks for.
fn bytes_near(random: &mut Random, entries: usize) -> usize {
    let exact = 2 * entries;
    match random.below(64) {
        0 => exact.max(random.between(8_190, 8_200)),
        1 => exact.max(random.between(16_380, 16_400)),
        2..=21 => exact + 1,
        22..=25 => exact.saturating_sub(1),
        _ => exact,
    }
}

/// Mostly exactly that of a report or somewhat more; one time in 16 too short.
fn report_length(random: &mut Random) -> usize {
    match random.below(32) {
        0 | 1 => random.below(REPORT),
        2 => random.between(60, 400),
        3..=13 => random.between(REPORT + 1, 2 * REPORT + 1),
        _ => REPORT,
    }
}

/// Decide and Run by turns.
fn decide_or_run(turn: usize) -> Operation {
    DECIDING[turn % DECIDING.len()]
}

/// A question about a file by the operation.
fn about(random: &mut Random, file: Vec<u8>, operation: Operation) -> Asked {
    let question = likely_question(random, &file, operation);
    (file, question)
}

fn random_files(random: &mut Random, turn: usize) -> Asked {
    let file = file_of(&random_tables(random));
    about(random, file, decide_or_run(turn))
}

fn branching_files(random: &mut Random, turn: usize) -> Asked {
    let file = file_of(&branching(random));
    about(random, file, decide_or_run(turn))
}

fn odd_files(random: &mut Random, turn: usize) -> Asked {
    let file = file_of(&odd_tables(random));
    about(random, file, decide_or_run(turn))
}

/// Turn 0 is the longest run.
fn cycles(random: &mut Random, turn: usize) -> Asked {
    let file = file_of(&cycles_or_chain(random, turn));
    let (file, mut question) = about(random, file, decide_or_run(turn + 1));
    if turn == 0 {
        (question.set, question.mode) = (0, 0);
        (question.demand_state, question.supply_state) = (1, 1);
        (question.first_length, question.second_length) = (MOST_PAIRS, 2 * MOST_PAIRS);
    }
    (file, question)
}

fn any_order(random: &mut Random, turn: usize) -> Asked {
    let file = file_of(&tables_in_any_order(random));
    about(random, file, EXPORTED[turn % EXPORTED.len()])
}

fn standing(random: &mut Random, turn: usize) -> Asked {
    let operation = decide_or_run(turn);
    let all = &STANDING_OPERATIONS;
    let place = all.iter().position(|one| *one == operation).unwrap_or(0);
    standing_question(random, place + turn / DECIDING.len() * all.len())
}

fn faulty_files(random: &mut Random, turn: usize) -> Asked {
    let fault = turn / EXPORTED.len() % FAULTS;
    let file = faulty_file(random, fault, turn < EXPORTED.len() * FAULTS);
    about(random, file, EXPORTED[turn % EXPORTED.len()])
}

fn two_faults_in_order(random: &mut Random, turn: usize) -> Asked {
    let file = two_faults(random, turn % TWO_FAULTS);
    about(random, file, EXPORTED[turn / TWO_FAULTS % EXPORTED.len()])
}

fn damaged_files(random: &mut Random, turn: usize) -> Asked {
    let file = match random.below(3) {
        0 => noise(random),
        _ => damaged_file(random),
    };
    about(random, file, EXPORTED[turn % EXPORTED.len()])
}

/// One time in eight both tables have as many states as there can be.
fn limits(random: &mut Random, turn: usize) -> Asked {
    let round = turn / 8;
    if turn % 8 == 0 {
        let largest = |kind| table_with_rows(random, kind, MOST_STATES, MOST_ROWS);
        let file = file_of(&[DEMAND, SUPPLY].map(largest));
        let (file, mut question) = about(random, file, decide_or_run(round));
        question.mode = round % 2;
        (question.first_length, question.second_length) = (MOST_PAIRS, 2 * MOST_PAIRS);
        return (file, question);
    }
    let file = limit_file(random, (turn - round) % LIMITS);
    about(random, file, EXPORTED[(turn + turn / LIMITS) % EXPORTED.len()])
}

fn faulty_questions(random: &mut Random, turn: usize) -> Asked {
    let mut all = operations_and_faults();
    all.retain(|(operation, _)| DECIDING.contains(operation));
    let (operation, fault) = all[turn % all.len()];
    let file = sound_file(random);
    let question = faulty_question(random, &file, operation, fault, turn < all.len());
    (file, question)
}
