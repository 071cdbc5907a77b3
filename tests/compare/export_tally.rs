//! Counts what the calls of exported functions covered, and prints it.

use crate::export_call::{Call, Due, LentSlices, FILE, MARKS, REPORT, REPORTED, STEPS};
use crate::export_cases::EXPORTED;
use crate::file::{open, MOST_STATES};
use crate::question::{Operation, Question};
use crate::tally::listed;

const FUNCTIONS: [&str; EXPORTED.len()] = ["slots_open", "slots_decide", "slots_run"];
const NUMBERS: usize = 16;
/// Some run must have so many steps or more.
const LONG_RUN: usize = 3_906;
/// Numbers from here on have bits that 32 do not hold.
const FAR: usize = 1 << 32;
/// Up to so many pairs a call is held to the same one with another mode or standing set.
const FEW_PAIRS: usize = 100;

/// The name of a sort of call, and whether a call is of it.
type Sort = (&'static str, bool);

/// What the sorts of call tell of, in the order of `sorts_of`.
const GROUPS: [&str; 4] = ["lent", "turned back", "carried out", "answered"];

#[derive(Default)]
pub struct ExportTally {
    answers: [[usize; EXPORTED.len()]; NUMBERS],
    /// How many calls were of each sort, by group.
    sorts: [Vec<(&'static str, usize)>; GROUPS.len()],
    longest_run: usize,
}

impl ExportTally {
    pub fn count(&mut self, call: &Call, due: &Due, lent: &LentSlices) {
        let asked = call.question.operation;
        if let Some(column) = EXPORTED.iter().position(|operation| *operation == asked) {
            self.answers[due.number as usize][column] += 1;
        }
        self.longest_run = self.longest_run.max(due.decision.map_or(0, |found| found.steps));
        for (counts, sorts) in self.sorts.iter_mut().zip(sorts_of(call, due, lent)) {
            add_sorts(counts, sorts.into_iter().map(|(name, found)| (name, found as usize)));
        }
    }

    /// Takes in the counts of another tally.
    pub fn add(&mut self, other: ExportTally) {
        for (counts, others) in self.answers.iter_mut().zip(other.answers) {
            for (count, other) in counts.iter_mut().zip(others) {
                *count += other;
            }
        }
        for (counts, others) in self.sorts.iter_mut().zip(other.sorts) {
            add_sorts(counts, others.into_iter());
        }
        self.longest_run = self.longest_run.max(other.longest_run);
    }

    pub fn print(&self) {
        print!("number");
        for name in FUNCTIONS {
            print!("{name:>14}");
        }
        println!();
        for (number, counts) in self.answers.iter().enumerate() {
            print!("{number:>6}");
            for (column, count) in counts.iter().enumerate() {
                match can_return(column, number) {
                    true => print!("{count:>14}"),
                    false => print!("{:>14}", "-"),
                }
            }
            println!();
        }
        for (group, sorts) in GROUPS.iter().zip(&self.sorts) {
            let (names, counts): (Vec<&str>, Vec<usize>) = sorts.iter().copied().unzip();
            println!("{group}: {}", listed(&names, &counts));
        }
        println!("longest run: {} steps", self.longest_run);
    }

    /// What no call hit, as sentences: numbers of the functions, sorts, a long run.
    pub fn missing(&self) -> Vec<String> {
        let mut sentences = Vec::new();
        for (number, counts) in self.answers.iter().enumerate() {
            for (column, name) in FUNCTIONS.iter().enumerate() {
                if can_return(column, number) && counts[column] == 0 {
                    sentences.push(format!("no call of {name} returned {number}"));
                }
            }
        }
        for (group, sorts) in GROUPS.iter().zip(&self.sorts) {
            for (name, _) in sorts.iter().filter(|(_, count)| *count == 0) {
                sentences.push(format!("never {group}: {name}"));
            }
        }
        if self.longest_run < LONG_RUN {
            sentences.push(format!("no run had {LONG_RUN} steps or more"));
        }
        sentences
    }
}

/// Whether the function of a column can return a number.
fn can_return(column: usize, number: usize) -> bool {
    EXPORTED[column] != Operation::Open || number <= 10 || number == 14
}

fn add_sorts(
    counts: &mut Vec<(&'static str, usize)>,
    others: impl Iterator<Item = (&'static str, usize)>,
) {
    for (index, (name, other)) in others.enumerate() {
        match counts.get_mut(index) {
            Some((_, count)) => *count += other,
            None => counts.push((name, other)),
        }
    }
}

fn sorts_of(call: &Call, due: &Due, lent: &LentSlices) -> [Vec<Sort>; GROUPS.len()] {
    [
        lent_sorts(call, lent),
        refused_sorts(call, due),
        done_sorts(call, due),
        answer_sorts(call, due),
    ]
}

/// How the slices are lent that the function takes.
fn lent_sorts(call: &Call, lent: &LentSlices) -> Vec<Sort> {
    let is_null = |which: usize| call.takes(which) && call.before[which].is_none();
    let is_odd = |which: usize| call.takes(which) && lent[which].has_odd_address();
    vec![
        ("NULL for the file", is_null(FILE)),
        ("NULL for the marks", is_null(MARKS)),
        ("NULL for the steps", is_null(STEPS)),
        ("NULL for the report", is_null(REPORTED)),
        ("a file at an odd address", is_odd(FILE)),
        ("marks at an odd address", is_odd(MARKS)),
        ("steps at an odd address", is_odd(STEPS)),
        ("a report at an odd address", is_odd(REPORTED)),
    ]
}

/// Why a call is turned back.
fn refused_sorts(call: &Call, due: &Due) -> Vec<Sort> {
    let question = &call.question;
    let short_report = call.slice(REPORTED).len() < REPORT;
    let exact = 2 * count_of_pairs(call);
    let too_short = due.number == 14 && !short_report;
    let short_marks = too_short && call.slice(MARKS).len() < exact;
    let short_steps = too_short && call.takes(STEPS) && call.slice(STEPS).len() < 2 * exact;
    let by_a_byte = |which: usize, exact: usize| call.slice(which).len() + 1 == exact;
    let table = question.first_table.max(question.second_table);
    let state = question.demand_state.max(question.supply_state);
    let far = |number: u16, passed: usize| due.number == number && passed >= FAR;
    vec![
        ("by a short report alone", short_report && due.own_number == 0),
        ("by a short report beside another fault", short_report && due.own_number != 0),
        ("by marks short of a byte", short_marks && by_a_byte(MARKS, exact)),
        ("by steps short of a byte", short_steps && by_a_byte(STEPS, 2 * exact)),
        ("by short marks and steps", short_marks && short_steps),
        ("by a table of 2^32 or more", far(11, table)),
        ("by a state of 2^32 or more", far(13, state)),
        ("by a mode of 2^32 or more", far(15, question.mode)),
    ]
}

/// What is lent to a call that is carried out.
fn done_sorts(call: &Call, due: &Due) -> Vec<Sort> {
    let done = due.number == 0;
    let [with_marks, with_steps] = [MARKS, STEPS].map(|which| done && call.takes(which));
    let [marks, steps, report] = [MARKS, STEPS, REPORTED].map(|which| call.slice(which).len());
    let exact = 2 * count_of_pairs(call);
    vec![
        ("with a longer report", done && report > REPORT),
        ("with longer marks", with_marks && marks > exact + 1),
        ("with longer steps", with_steps && steps > 2 * exact + 1),
        ("with marks of an odd length", with_marks && marks % 2 == 1),
        ("with steps of an odd length", with_steps && steps % 2 == 1),
        ("with marks above 8,192 bytes", with_marks && marks > 8_192),
        ("with steps above 16,384 bytes", with_steps && steps > 16_384),
    ]
}

/// What is asked of a call of Decide or Run that is carried out, and what it answers.
fn answer_sorts(call: &Call, due: &Due) -> Vec<Sort> {
    let asked = |operation: Operation| due.number == 0 && call.question.operation == operation;
    let (decide, run) = (asked(Operation::Decide), asked(Operation::Run));
    let pairs = count_of_pairs(call);
    let (few, all) = (pairs <= FEW_PAIRS, pairs == MOST_STATES * MOST_STATES);
    let matters = (decide || run) && few && set_matters(call, due);
    let yes = due.decision.is_some_and(|decision| decision.yes);
    let decided = |mode: usize, is_yes: bool| {
        decide && call.question.mode == mode && yes == is_yes
    };
    vec![
        ("full yes by Decide", decided(0, true)),
        ("full no with partial yes by Decide", decided(0, false) && few && partial_yes(call)),
        ("partial no by Decide", decided(1, false)),
        ("more than one step by Run", due.decision.is_some_and(|decision| decision.steps > 1)),
        ("64 by 64 states by Decide", decide && all),
        ("64 by 64 states by Run", run && all),
        ("otherwise than with nothing standing by Decide", decide && matters),
        ("otherwise than with nothing standing by Run", run && matters),
    ]
}

/// The count of pairs of states; 0 where the file does not have both tables.
fn count_of_pairs(call: &Call) -> usize {
    let tables = open(call.slice(FILE)).unwrap_or_default();
    let states = |table: usize| tables.get(table).map_or(0, |table| table.states);
    states(call.question.first_table) * states(call.question.second_table)
}

/// Whether the same call in partial mode answers yes.
fn partial_yes(call: &Call) -> bool {
    let partial = call.due_of(&Question { mode: 1, ..call.question });
    partial.decision.is_some_and(|decision| decision.yes)
}

/// Whether the same call with nothing standing has another answer.
fn set_matters(call: &Call, due: &Due) -> bool {
    let set = call.question.set;
    set != 0 && call.due_of(&Question { set: 0, ..call.question }).after != due.after
}
