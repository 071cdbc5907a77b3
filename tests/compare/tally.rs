//! Counts what the cases covered, and prints it.

use crate::answers::{answer, Answer, Decision, Explanation};
use crate::cases::Program;
use crate::file::open;
use crate::merge_cases::{sorts_of_merge, MERGES};
use crate::panel::{sorts_of_pick, PICKS};
use crate::question::{Operation, Question, HEAD_LENGTH, STANDING_OPERATIONS};
use crate::reach_cases::{sorts_of_reach, REACHES};
use crate::rules::{Mode, NO_ROW};
use crate::standing::{has_to_come, sorts_of, STANDINGS};

const COLUMNS: [&str; 16] = [
    "slots", "aut", "Open", "Body", "Moves", "Decide", "Run", "Join", "Report", "Readers",
    "Constants", "Graph", "Explain", "Pick", "Reach", "Merge",
];
const NUMBERS: usize = 18;
const VERDICTS: [&str; 3] = ["full yes", "full no with partial yes", "partial no"];
/// What is explained; the last counts beside one of the others.
const EXPLANATIONS: [&str; 7] = [
    "kept in full mode",
    "kept in partial mode",
    "above mark 1 in full mode",
    "above mark 1 in partial mode",
    "at mark 1 beside a move",
    "at mark 1 beside a stuck supply",
    "with different marks above 0",
];
/// What common resources led to in a join; one join may count at several.
const JOINS: [&str; 4] = [
    "carried out with other rows than with none in common",
    "turned back with 17 but not with none in common",
    "carried out with all 16 in common",
    "carried out with some in common that neither table uses",
];
/// Some run must have so many steps or more.
const LONG_RUN: usize = 3_906;
/// Some text of `aut` must have so many bytes or more.
const LONG_TEXT: usize = 65_536;

pub struct Tally {
    answers: [[usize; COLUMNS.len()]; NUMBERS],
    nothing_printed: usize,
    full_yes: usize,
    full_no: usize,
    partial_yes: usize,
    partial_no: usize,
    longest_run: usize,
    longest_text: usize,
    verdicts_of_slots: [usize; VERDICTS.len()],
    explanations: [usize; EXPLANATIONS.len()],
    joins: [usize; JOINS.len()],
    picks: [usize; PICKS.len()],
    reaches: [usize; REACHES.len()],
    merges: [usize; MERGES.len()],
    /// For each sort the operations, as they stand in `STANDING_OPERATIONS`.
    standings: [[usize; STANDING_OPERATIONS.len()]; STANDINGS.len()],
}

impl Tally {
    pub fn new() -> Tally {
        Tally {
            answers: [[0; COLUMNS.len()]; NUMBERS],
            nothing_printed: 0,
            full_yes: 0,
            full_no: 0,
            partial_yes: 0,
            partial_no: 0,
            longest_run: 0,
            longest_text: 0,
            verdicts_of_slots: [0; VERDICTS.len()],
            explanations: [0; EXPLANATIONS.len()],
            joins: [0; JOINS.len()],
            picks: [0; PICKS.len()],
            reaches: [0; REACHES.len()],
            merges: [0; MERGES.len()],
            standings: [[0; STANDING_OPERATIONS.len()]; STANDINGS.len()],
        }
    }

    pub fn count(&mut self, program: Program, input: &[u8], answer: &Answer) {
        let question = match program {
            Program::Calls => Question::read(input),
            _ => None,
        };
        let column = match program {
            Program::Slots => Some(0),
            Program::Aut => Some(1),
            Program::Calls => question.map(|question| 2 + question.operation as usize),
        };
        match (column, answer.number) {
            (Some(column), Some(number)) => self.answers[number as usize][column] += 1,
            _ => self.nothing_printed += 1,
        }
        for decision in &answer.decisions {
            self.count_decision(decision);
        }
        if let Some(explanation) = &answer.explanation {
            self.count_explanation(explanation);
        }
        if let Some(question) = question {
            self.count_sets(&question, &input[HEAD_LENGTH..], answer);
        }
        if program == Program::Aut {
            self.longest_text = self.longest_text.max(answer.text.len());
        }
        if let (Program::Slots, [full, partial]) = (program, &answer.decisions[..]) {
            self.verdicts_of_slots[!full.yes as usize + !partial.yes as usize] += 1;
        }
    }

    fn count_decision(&mut self, decision: &Decision) {
        let counter = match (decision.mode, decision.yes) {
            (Mode::Full, true) => &mut self.full_yes,
            (Mode::Full, false) => &mut self.full_no,
            (Mode::Partial, true) => &mut self.partial_yes,
            (Mode::Partial, false) => &mut self.partial_no,
        };
        *counter += 1;
        self.longest_run = self.longest_run.max(decision.steps);
    }

    fn count_explanation(&mut self, explanation: &Explanation) {
        let triples = &explanation.triples;
        let kind = match (explanation.mark, explanation.mode) {
            (0, Mode::Full) => 0,
            (0, Mode::Partial) => 1,
            (1, _) => 4 + triples.iter().any(|triple| triple.supply_row == NO_ROW) as usize,
            (_, Mode::Full) => 2,
            (_, Mode::Partial) => 3,
        };
        self.explanations[kind] += 1;
        let mut above = triples.iter().map(|triple| triple.mark).filter(|mark| *mark > 0);
        let first = above.next();
        self.explanations[6] += above.any(|mark| Some(mark) != first) as usize;
    }

    /// Counts what the set of a question led to, where its call reads one, and the sorts
    /// of a merge.
    fn count_sets(&mut self, question: &Question, file: &[u8], answer: &Answer) {
        let operation = question.operation;
        if operation == Operation::Join {
            self.count_join(question, file, answer);
        }
        if operation == Operation::Merge && answer.number == Some(0) {
            let sorts = sorts_of_merge(question, file);
            for (count, found) in self.merges.iter_mut().zip(sorts) {
                *count += found as usize;
            }
        }
        if let Some(listed) = &answer.picked {
            let sorts = sorts_of_pick(question, file, listed);
            for (count, found) in self.picks.iter_mut().zip(sorts) {
                *count += found as usize;
            }
        }
        if let Some(count) = answer.reached {
            let sorts = sorts_of_reach(question, file, count);
            for (count, found) in self.reaches.iter_mut().zip(sorts) {
                *count += found as usize;
            }
        }
        if let Some(place) = STANDING_OPERATIONS.iter().position(|one| *one == operation) {
            let sorts = sorts_of(question, file, answer);
            for (counts, found) in self.standings.iter_mut().zip(sorts) {
                counts[place] += found as usize;
            }
        }
    }

    /// Holds a join to the same one with no common resources.
    fn count_join(&mut self, question: &Question, file: &[u8], joined: &Answer) {
        let plain = answer(&Question { set: 0, ..*question }.before(file));
        let common = question.resources();
        let done = joined.number == Some(0);
        let found = [
            done && joined.text != plain.text,
            joined.number == Some(17) && plain.number != Some(17),
            done && common == u16::MAX,
            done && common != 0 && common & used_resources(question, file) == 0,
        ];
        for (count, found) in self.joins.iter_mut().zip(found) {
            *count += found as usize;
        }
    }

    /// Takes in the counts of another tally.
    pub fn add(&mut self, other: &Tally) {
        for number in 0..NUMBERS {
            for column in 0..COLUMNS.len() {
                self.answers[number][column] += other.answers[number][column];
            }
        }
        for verdict in 0..VERDICTS.len() {
            self.verdicts_of_slots[verdict] += other.verdicts_of_slots[verdict];
        }
        for kind in 0..EXPLANATIONS.len() {
            self.explanations[kind] += other.explanations[kind];
        }
        for kind in 0..JOINS.len() {
            self.joins[kind] += other.joins[kind];
        }
        for kind in 0..PICKS.len() {
            self.picks[kind] += other.picks[kind];
        }
        for kind in 0..REACHES.len() {
            self.reaches[kind] += other.reaches[kind];
        }
        for kind in 0..MERGES.len() {
            self.merges[kind] += other.merges[kind];
        }
        for (counts, others) in self.standings.iter_mut().zip(other.standings) {
            for (count, other) in counts.iter_mut().zip(others) {
                *count += other;
            }
        }
        self.nothing_printed += other.nothing_printed;
        self.full_yes += other.full_yes;
        self.full_no += other.full_no;
        self.partial_yes += other.partial_yes;
        self.partial_no += other.partial_no;
        self.longest_run = self.longest_run.max(other.longest_run);
        self.longest_text = self.longest_text.max(other.longest_text);
    }

    pub fn print(&self) {
        print!("number");
        for name in COLUMNS {
            print!("{name:>10}");
        }
        println!();
        for number in 0..NUMBERS {
            print!("{number:>6}");
            for column in 0..COLUMNS.len() {
                if can_answer(column, number) {
                    print!("{:>10}", self.answers[number][column]);
                } else {
                    print!("{:>10}", "-");
                }
            }
            println!();
        }
        println!("questions to which nothing is printed: {}", self.nothing_printed);
        println!("full: {} yes, {} no", self.full_yes, self.full_no);
        println!("partial: {} yes, {} no", self.partial_yes, self.partial_no);
        println!("slots: {}", listed(&VERDICTS, &self.verdicts_of_slots));
        println!("explained: {}", listed(&EXPLANATIONS, &self.explanations));
        println!("joined: {}", listed(&JOINS, &self.joins));
        println!("picked: {}", listed(&PICKS, &self.picks));
        println!("reached: {}", listed(&REACHES, &self.reaches));
        println!("merged: {}", listed(&MERGES, &self.merges));
        for (sort, name) in STANDINGS.iter().enumerate() {
            let (operations, counts): (Vec<_>, Vec<_>) = self.standing(sort).into_iter().unzip();
            println!("{name}: {}", listed(&operations, &counts));
        }
        println!("longest run: {} steps", self.longest_run);
        println!("longest text of aut: {} bytes", self.longest_text);
    }

    /// How often a sort of `STANDINGS` came, for each operation for which it has to.
    fn standing(&self, sort: usize) -> Vec<(&'static str, usize)> {
        let all = STANDING_OPERATIONS.iter().zip(self.standings[sort]);
        let due = all.filter(|(operation, _)| has_to_come(sort, **operation));
        due.map(|(operation, count)| (COLUMNS[2 + *operation as usize], count)).collect()
    }

    /// What no case hit, as sentences: numbers of the calls, verdicts of `slots`,
    /// explanations, joins, picks, answers of Reach, merges, standing sets, a long run, a
    /// long text.
    pub fn missing(&self) -> Vec<String> {
        let mut sentences = Vec::new();
        for number in 0..NUMBERS {
            for (column, name) in COLUMNS.iter().enumerate() {
                if can_answer(column, number) && self.answers[number][column] == 0 {
                    sentences.push(format!("no case of {name} answered {number}"));
                }
            }
        }
        let sorts: [(&str, &[&str], &[usize]); 6] = [
            ("no case of slots was", &VERDICTS, &self.verdicts_of_slots),
            ("no pair was explained that is", &EXPLANATIONS, &self.explanations),
            ("no join was", &JOINS, &self.joins),
            ("no Pick was carried out", &PICKS, &self.picks),
            ("no Reach said", &REACHES, &self.reaches),
            ("no Merge was carried out with", &MERGES, &self.merges),
        ];
        for (beginning, names, counts) in sorts {
            for name in never(names, counts) {
                sentences.push(format!("{beginning} {name}"));
            }
        }
        for (sort, name) in STANDINGS.iter().enumerate() {
            for (operation, _) in self.standing(sort).iter().filter(|(_, count)| *count == 0) {
                sentences.push(format!("no case of {operation} was {name}"));
            }
        }
        if self.longest_run < LONG_RUN {
            sentences.push(format!("no run had {LONG_RUN} steps or more"));
        }
        if self.longest_text < LONG_TEXT {
            sentences.push(format!("no text of aut had {LONG_TEXT} bytes or more"));
        }
        sentences
    }
}

/// The resources that the two tables of a join name.
fn used_resources(question: &Question, file: &[u8]) -> u16 {
    let tables = open(file).unwrap_or_default();
    let asked = [question.first_table, question.second_table];
    let found = asked.iter().filter_map(|table| tables.get(*table));
    found.fold(0, |all, table| all | table.resources())
}

/// The names of what was never counted.
fn never<'a>(names: &[&'a str], counts: &[usize]) -> Vec<&'a str> {
    let all = names.iter().zip(counts);
    all.filter(|(_, count)| **count == 0).map(|(name, _)| *name).collect()
}

/// Counts with their names.
pub fn listed(names: &[&str], counts: &[usize]) -> String {
    let words: Vec<String> =
        names.iter().zip(counts).map(|(name, count)| format!("{count} {name}")).collect();
    words.join(", ")
}

/// Whether the call of a column can answer a number.
fn can_answer(column: usize, number: usize) -> bool {
    match COLUMNS[column] {
        "slots" => number <= 10 || number == 12,
        "aut" => number <= 10 || number == 12 || number == 14,
        "Open" => number <= 10,
        "Body" => number <= 11,
        "Moves" | "Graph" => number <= 14,
        "Pick" => number <= 12 || [14, 15].contains(&number),
        "Join" | "Merge" => number <= 12 || [14, 16, 17].contains(&number),
        "Report" => number == 0 || number == 14,
        "Readers" | "Constants" => number == 0,
        "Reach" => number <= 13,
        _ => number <= 15,
    }
}
