//! The random cases, made from fixed seeds: the kinds of case in a fixed
//! rotation.

use crate::calls::{
    faulty_question, join_at_limit, likely_question, operations_and_faults, report_question,
    wide_moves, wide_triples, REPORT_LENGTHS, WIDE, WIDE_TRIPLES,
};
use crate::drafts::{
    branching, cycles_or_chain, file_of, largest_tables, odd_tables, random_tables,
    tables_in_any_order, tables_of_one_kind,
};
use crate::faults::{
    damaged_file, faulty_file, limit_file, noise, sound_file, two_faults, FAULTS, LIMITS,
    TWO_FAULTS,
};
use crate::merge_cases::merge_question;
use crate::panel::pick_question;
use crate::question::{Operation, HEAD_LENGTH, RANDOM_OPERATIONS};
use crate::random::Random;
use crate::reach_cases::reach_question;
use crate::standing::standing_question;
use crate::wide::{wide_graph, WIDE_GRAPHS};

#[derive(Clone, Copy, PartialEq, Eq)]
pub enum Program {
    Slots,
    Aut,
    Calls,
}

pub struct Case {
    pub kind: &'static str,
    pub program: Program,
    pub input: Vec<u8>,
    /// In how many pieces the input is written.
    pub pieces: usize,
}

/// A kind of case: its name, how often it stands in the rotation, and how to
/// make one. The turn counts the cases of this kind.
struct Kind {
    name: &'static str,
    often: usize,
    make: fn(&mut Random, usize) -> Made,
}

struct Made {
    program: Program,
    input: Vec<u8>,
    pieces: usize,
}

fn for_slots(input: Vec<u8>) -> Made {
    Made { program: Program::Slots, input, pieces: 1 }
}

fn for_aut(input: Vec<u8>) -> Made {
    Made { program: Program::Aut, input, pieces: 1 }
}

fn for_calls(input: Vec<u8>) -> Made {
    Made { program: Program::Calls, input, pieces: 1 }
}

const fn kind(name: &'static str, often: usize, make: fn(&mut Random, usize) -> Made) -> Kind {
    Kind { name, often, make }
}

const ROTATION: [Kind; 35] = [
    kind("slots, random tables", 3, slots_random),
    kind("slots, cycles and chains", 1, slots_cycles),
    kind("slots, branching tables", 2, slots_branching),
    kind("slots, odd tables", 1, slots_odd),
    kind("slots, kinds in any order", 1, slots_any_order),
    kind("slots, file with faults", 2, slots_faulty),
    kind("slots, two faults in order", 1, slots_two_faults),
    kind("slots, damaged file", 1, slots_damaged),
    kind("slots, random bytes", 1, slots_noise),
    kind("slots, file at a limit", 1, slots_limit),
    kind("slots, long input or pieces", 1, slots_long),
    kind("aut, random tables", 1, aut_random),
    kind("aut, tables by a plan", 2, aut_planned),
    kind("aut, file with faults or at a limit", 1, aut_faulty),
    kind("aut, long text, long input or pieces", 1, aut_long),
    kind("calls, random tables", 3, calls_random),
    kind("calls, Run or Explain on cycles and chains", 2, calls_cycles),
    kind("calls, branching tables", 3, calls_branching),
    kind("calls, odd tables", 1, calls_odd),
    kind("calls, kinds in any order", 1, calls_any_order),
    kind("calls, file with faults", 13, calls_faulty_file),
    kind("calls, two faults in order", 1, calls_two_faults),
    kind("calls, question with faults", 7, calls_faulty_question),
    kind("calls, damaged file or random bytes", 1, calls_damaged),
    kind("calls, file at a limit", 1, calls_limit),
    kind("calls, Join of random tables", 2, calls_join),
    kind("calls, Join at a limit", 1, calls_join_limit),
    kind("calls, very many moves or triples", 1, calls_wide),
    kind("calls, standing resources", 4, calls_standing),
    kind("calls, Pick", 6, calls_pick),
    kind("calls, Reach", 4, calls_reach),
    kind("calls, Merge", 6, calls_merge),
    kind("calls, Report", 3, calls_report),
    kind("calls, Graph", 3, calls_graph),
    kind("calls, no whole question", 1, calls_nothing),
];

/// The case with this number. The same number always gives the same case.
pub fn case(number: usize) -> Case {
    let often: Vec<usize> = ROTATION.iter().map(|kind| kind.often).collect();
    let (which, turn) = in_rotation(&often, number);
    let kind = &ROTATION[which];
    let mut random = Random::new(number as u64);
    let made = (kind.make)(&mut random, turn);
    Case { kind: kind.name, program: made.program, input: made.input, pieces: made.pieces }
}

/// Which kind a number has in a rotation of kinds that stand there so often, and how
/// many lower numbers have it.
pub fn in_rotation(often: &[usize], number: usize) -> (usize, usize) {
    let length: usize = often.iter().sum();
    let mut place = number % length;
    let mut which = 0;
    while place >= often[which] {
        place -= often[which];
        which += 1;
    }
    (which, number / length * often[which] + place)
}

fn slots_random(random: &mut Random, _: usize) -> Made {
    for_slots(file_of(&random_tables(random)))
}

fn slots_cycles(random: &mut Random, turn: usize) -> Made {
    for_slots(file_of(&cycles_or_chain(random, turn)))
}

fn slots_branching(random: &mut Random, _: usize) -> Made {
    for_slots(file_of(&branching(random)))
}

fn slots_odd(random: &mut Random, _: usize) -> Made {
    for_slots(file_of(&odd_tables(random)))
}

fn slots_any_order(random: &mut Random, _: usize) -> Made {
    for_slots(file_of(&tables_in_any_order(random)))
}

fn slots_faulty(random: &mut Random, turn: usize) -> Made {
    for_slots(faulty_file(random, turn % FAULTS, turn < FAULTS))
}

fn slots_two_faults(random: &mut Random, turn: usize) -> Made {
    for_slots(two_faults(random, turn % TWO_FAULTS))
}

fn slots_damaged(random: &mut Random, _: usize) -> Made {
    for_slots(damaged_file(random))
}

fn slots_noise(random: &mut Random, _: usize) -> Made {
    for_slots(noise(random))
}

fn slots_limit(random: &mut Random, turn: usize) -> Made {
    for_slots(limit_file(random, turn % LIMITS))
}

/// Inputs around and beyond the longest read, and inputs that come in pieces.
fn slots_long(random: &mut Random, turn: usize) -> Made {
    let (input, pieces) = long_input(random, turn);
    Made { program: Program::Slots, input, pieces }
}

/// An input of one of 12 sorts, and in how many pieces it comes.
fn long_input(random: &mut Random, turn: usize) -> (Vec<u8>, usize) {
    let lengths = [32_866, 32_867, 32_868, 40_000, 100_000];
    let (mut input, pieces) = match turn % 12 {
        0..=4 => (file_of(&largest_tables(random)), random.pick(&[1, 3, 9])),
        5 => (Vec::new(), 1),
        6 => byte_by_byte(file_of(&odd_tables(random))),
        7 => (sound_file(random), 5),
        8 => (damaged_file(random), 3),
        _ => (sound_file(random), 2),
    };
    let length = match turn % 12 {
        place @ 0..=4 => lengths[place],
        9 => random.pick(&lengths),
        _ => input.len(),
    };
    let missing = length.saturating_sub(input.len());
    input.extend(random.bytes(missing));
    (input, pieces)
}

/// A file and as many pieces as it has bytes.
fn byte_by_byte(file: Vec<u8>) -> (Vec<u8>, usize) {
    let pieces = file.len();
    (file, pieces)
}

fn aut_random(random: &mut Random, _: usize) -> Made {
    for_aut(file_of(&random_tables(random)))
}

fn aut_planned(random: &mut Random, turn: usize) -> Made {
    let tables = match turn % 5 {
        0 => odd_tables(random),
        1 => tables_in_any_order(random),
        2 => cycles_or_chain(random, turn / 5),
        _ => branching(random),
    };
    for_aut(file_of(&tables))
}

fn aut_faulty(random: &mut Random, turn: usize) -> Made {
    let round = turn / 5;
    let file = match turn % 5 {
        0 => faulty_file(random, round % FAULTS, round < FAULTS),
        1 => two_faults(random, round % TWO_FAULTS),
        2 => damaged_file(random),
        3 => noise(random),
        _ => limit_file(random, round % LIMITS),
    };
    for_aut(file)
}

/// Of 64 cases one has a text around the longest, and four have an input that is
/// long or comes in pieces.
fn aut_long(random: &mut Random, turn: usize) -> Made {
    if turn % 64 == 0 {
        return for_aut(wide_graph(random, turn / 64 % WIDE_GRAPHS));
    }
    if turn % 16 == 8 {
        let (input, pieces) = long_input(random, turn / 16);
        return Made { program: Program::Aut, input, pieces };
    }
    for_aut(sound_file(random))
}

fn calls_random(random: &mut Random, turn: usize) -> Made {
    let asked = [
        Operation::Decide,
        Operation::Run,
        Operation::Moves,
        Operation::Explain,
        Operation::Run,
        Operation::Reach,
    ];
    let operation = match turn % 13 {
        12 => any_operation(random),
        place => asked[place % asked.len()],
    };
    let file = file_of(&random_tables(random));
    for_calls(likely_question(random, &file, operation).before(&file))
}

fn calls_cycles(random: &mut Random, turn: usize) -> Made {
    let file = file_of(&cycles_or_chain(random, turn / 2));
    let operation = [Operation::Run, Operation::Explain][turn % 2];
    let mut question = likely_question(random, &file, operation);
    if turn < 2 {
        question.set = 0;
        (question.demand_state, question.supply_state) = (1, 1);
        (question.first_length, question.second_length) = (64 * 63, 2 * 64 * 63);
    }
    for_calls(question.before(&file))
}

fn calls_branching(random: &mut Random, turn: usize) -> Made {
    let asked = [
        Operation::Run,
        Operation::Explain,
        Operation::Moves,
        Operation::Run,
        Operation::Explain,
        Operation::Decide,
        Operation::Reach,
    ];
    let file = file_of(&branching(random));
    for_calls(likely_question(random, &file, asked[turn % asked.len()]).before(&file))
}

fn calls_odd(random: &mut Random, turn: usize) -> Made {
    let asked = [
        Operation::Run,
        Operation::Moves,
        Operation::Decide,
        Operation::Explain,
        Operation::Reach,
    ];
    let file = file_of(&odd_tables(random));
    for_calls(likely_question(random, &file, asked[turn % asked.len()]).before(&file))
}

fn any_operation(random: &mut Random) -> Operation {
    random.pick(&RANDOM_OPERATIONS)
}

/// The operations in turn.
fn operation_at(turn: usize) -> Operation {
    RANDOM_OPERATIONS[turn % RANDOM_OPERATIONS.len()]
}

fn calls_any_order(random: &mut Random, turn: usize) -> Made {
    let file = file_of(&tables_in_any_order(random));
    for_calls(likely_question(random, &file, operation_at(turn)).before(&file))
}

fn calls_faulty_file(random: &mut Random, turn: usize) -> Made {
    let fault = turn / RANDOM_OPERATIONS.len() % FAULTS;
    let alone = turn < RANDOM_OPERATIONS.len() * FAULTS;
    let file = faulty_file(random, fault, alone);
    for_calls(likely_question(random, &file, operation_at(turn)).before(&file))
}

fn calls_two_faults(random: &mut Random, turn: usize) -> Made {
    let file = two_faults(random, turn % TWO_FAULTS);
    for_calls(likely_question(random, &file, operation_at(turn)).before(&file))
}

fn calls_faulty_question(random: &mut Random, turn: usize) -> Made {
    let all = operations_and_faults();
    let (operation, fault) = all[turn % all.len()];
    let tables = match random.below(8) {
        0 => tables_in_any_order(random),
        _ => random_tables(random),
    };
    let file = file_of(&tables);
    let alone = turn < all.len();
    for_calls(faulty_question(random, &file, operation, fault, alone).before(&file))
}

fn calls_damaged(random: &mut Random, turn: usize) -> Made {
    let file = match random.below(3) {
        0 => noise(random),
        _ => damaged_file(random),
    };
    for_calls(likely_question(random, &file, operation_at(turn)).before(&file))
}

fn calls_limit(random: &mut Random, turn: usize) -> Made {
    let file = limit_file(random, turn % LIMITS);
    let operation = any_operation(random);
    for_calls(likely_question(random, &file, operation).before(&file))
}

/// Joins of tables with few states, sometimes of a table with itself.
fn calls_join(random: &mut Random, _: usize) -> Made {
    let mut tables = odd_tables(random);
    tables.extend(random_tables(random));
    tables.extend(odd_tables(random));
    let file = file_of(&tables);
    for_calls(likely_question(random, &file, Operation::Join).before(&file))
}

fn calls_join_limit(random: &mut Random, turn: usize) -> Made {
    let (file, question) = join_at_limit(random, turn, Operation::Join);
    for_calls(question.before(&file))
}

/// Long answers, so only every other case is one of the largest.
fn calls_wide(random: &mut Random, turn: usize) -> Made {
    if turn % 6 == 1 {
        let (file, question) = wide_triples(turn / 6 % WIDE_TRIPLES);
        return for_calls(question.before(&file));
    }
    if turn % 3 == 0 {
        let (file, question) = wide_moves(random, turn / 3 % WIDE);
        return for_calls(question.before(&file));
    }
    let file = sound_file(random);
    for_calls(likely_question(random, &file, Operation::Moves).before(&file))
}

fn calls_standing(random: &mut Random, turn: usize) -> Made {
    let (file, question) = standing_question(random, turn);
    for_calls(question.before(&file))
}

fn calls_pick(random: &mut Random, turn: usize) -> Made {
    let (file, question) = pick_question(random, turn);
    for_calls(question.before(&file))
}

fn calls_reach(random: &mut Random, turn: usize) -> Made {
    let (file, question) = reach_question(random, turn);
    for_calls(question.before(&file))
}

fn calls_merge(random: &mut Random, turn: usize) -> Made {
    let (file, question) = merge_question(random, turn);
    for_calls(question.before(&file))
}

/// How many sorts of file Report gets.
const REPORT_FILES: usize = 5;

/// Files of each sort with every length that `report_question` asks for.
fn calls_report(random: &mut Random, turn: usize) -> Made {
    let round = turn / REPORT_FILES;
    let file = match turn % REPORT_FILES {
        0 => sound_file(random),
        1 => faulty_file(random, round % FAULTS, true),
        2 => file_of(&tables_of_one_kind(random)),
        3 => damaged_file(random),
        _ => file_of(&cycles_or_chain(random, round / REPORT_LENGTHS)),
    };
    for_calls(report_question(random, &file, round % REPORT_LENGTHS).before(&file))
}

fn calls_graph(random: &mut Random, turn: usize) -> Made {
    let tables = match turn % 6 {
        0 | 3 => random_tables(random),
        1 | 4 => branching(random),
        2 => odd_tables(random),
        _ => tables_in_any_order(random),
    };
    let file = file_of(&tables);
    for_calls(likely_question(random, &file, Operation::Graph).before(&file))
}

/// Questions shorter than a head, and operations above 13; also whole ones that
/// come in pieces.
fn calls_nothing(random: &mut Random, turn: usize) -> Made {
    let file = sound_file(random);
    let operation = any_operation(random);
    let mut input = likely_question(random, &file, operation).before(&file);
    let mut pieces = 1;
    match turn % 4 {
        0 => input.truncate(random.below(HEAD_LENGTH)),
        1 => input[..8].copy_from_slice(&unknown_operation(random).to_le_bytes()),
        2 => input.truncate(random.between(HEAD_LENGTH, HEAD_LENGTH + 1)),
        _ if turn % 64 == 3 => pieces = random.between(2, 9),
        _ => {}
    }
    Made { program: Program::Calls, input, pieces }
}

fn unknown_operation(random: &mut Random) -> u64 {
    random.pick(&[14, 15, 255, 256, 1 << 32, u64::MAX])
}
