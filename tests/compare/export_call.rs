//! A call of an exported function, by change request L7: what is due, what came, and
//! where the two differ.

use crate::answers::{call, Decision, Lent};
use crate::cases::{Case, Program};
use crate::exports::{self, Numbers};
use crate::lent::{LentSlice, Slice};
use crate::question::{Operation, Question};
use std::sync::atomic::{AtomicUsize, Ordering};

/// The bytes of a report.
pub const REPORT: usize = 24;
/// The slices of a call, each at its place. Open is lent the first and the last of
/// them, Decide all but the steps.
pub const SLICES: [&str; 4] = ["file", "marks", "steps", "report"];
pub const FILE: usize = 0;
pub const MARKS: usize = 1;
pub const STEPS: usize = 2;
pub const REPORTED: usize = 3;

pub type Slices = [Slice; SLICES.len()];
pub type LentSlices = [LentSlice; SLICES.len()];

/// A call: its function and the numbers that it takes, as of a question, whose lengths
/// are not read; and what the slices hold before it.
pub struct Call {
    pub question: Question,
    pub before: Slices,
}

/// What has to come of a call.
pub struct Due {
    pub number: u16,
    /// The number without the rule for a short report.
    pub own_number: u16,
    pub decision: Option<Decision>,
    pub after: Slices,
}

impl Call {
    pub fn slice(&self, which: usize) -> &[u8] {
        self.before[which].as_deref().unwrap_or_default()
    }

    /// Which of the slices the function takes.
    pub fn takes(&self, which: usize) -> bool {
        match self.question.operation {
            Operation::Open => which == FILE || which == REPORTED,
            Operation::Decide => which != STEPS,
            _ => true,
        }
    }

    /// What is due of the call, by the checker here.
    pub fn due(&self) -> Due {
        self.due_of(&self.question)
    }

    /// What is due of a call that takes the numbers of another question.
    pub fn due_of(&self, question: &Question) -> Due {
        let entries = |which: usize| entries_of(self.slice(which));
        let mut lent = Lent { first: entries(MARKS), second: entries(STEPS) };
        let mut after = self.before.clone();
        let result = call(question, self.slice(FILE), &mut lent);
        let own_number = result.as_ref().map_or_else(|refusal| refusal.number, |_| 0);
        if self.slice(REPORTED).len() < REPORT {
            return Due { number: 14, own_number, decision: None, after };
        }
        let (values, decision) = match result {
            Err(refusal) => (vec![refusal.place], None),
            Ok(returned) => {
                put_entries(&mut after[MARKS], &lent.first);
                put_entries(&mut after[STEPS], &lent.second);
                (returned.values, returned.decisions.first().copied())
            }
        };
        put_report(&mut after[REPORTED], &values);
        Due { number: own_number, own_number, decision, after }
    }

    /// Makes the call with these slices, and holds what comes to what is due.
    pub fn hold(&self, due: &Due, mut lent: LentSlices) -> Result<(), String> {
        let number = self.make(&mut lent);
        let mut differences = Vec::new();
        if number != due.number as u64 {
            differences.push(format!("returned: due {}, came {number}", due.number));
        }
        for ((name, lent), due) in SLICES.iter().zip(&lent).zip(&due.after) {
            if let Err(reason) = lent.hold(due) {
                differences.push(format!("{name}, {reason}"));
            }
        }
        match differences.is_empty() {
            true => Ok(()),
            false => Err(differences.join("\n  ")),
        }
    }

    /// Makes the call, and gives the number that is returned.
    fn make(&self, lent: &mut LentSlices) -> u64 {
        let [file, marks, steps, report] = lent;
        let question = &self.question;
        let numbers = Numbers {
            demand: question.first_table as u64,
            supply: question.second_table as u64,
            demand_state: question.demand_state as u64,
            supply_state: question.supply_state as u64,
            mode: question.mode as u64,
            standing: question.resources(),
        };
        let (file, report) = (file.read(), report.write());
        meanwhile(|| match question.operation {
            Operation::Open => exports::open(file, report),
            Operation::Decide => exports::decide(file, &numbers, marks.write(), report),
            _ => exports::run(file, &numbers, marks.write(), steps.write(), report),
        })
    }

    /// The call as a case of `calls_test`, in which a slice has as many entries as there
    /// are whole ones.
    pub fn case(&self, kind: &'static str) -> Case {
        let question = Question {
            first_length: self.slice(MARKS).len() / 2,
            second_length: self.slice(STEPS).len() / 2,
            ..self.question
        };
        let input = question.before(self.slice(FILE));
        Case { kind, program: Program::Calls, input, pieces: 1 }
    }

    /// The call in words: the numbers in the order in which the function takes them, then
    /// the lengths.
    pub fn name(&self) -> String {
        let asked = &self.question;
        let tables = format!("{} {}", asked.first_table, asked.second_table);
        let states = format!("{} {}", asked.demand_state, asked.supply_state);
        let numbers = format!("{tables} {states} {} {}", asked.mode, asked.resources());
        let function = match asked.operation {
            Operation::Open => "slots_open".to_string(),
            Operation::Decide => format!("slots_decide {numbers}"),
            _ => format!("slots_run {numbers}"),
        };
        let length = |which: usize| match &self.before[which] {
            None => format!("{} NULL", SLICES[which]),
            Some(slice) => format!("{} {}", SLICES[which], slice.len()),
        };
        let taken = (0..SLICES.len()).filter(|which| self.takes(*which));
        let lengths: Vec<String> = taken.map(length).collect();
        format!("{function}, {}", lengths.join(", "))
    }
}

/// How many calls are being made, and how many began while another one was.
static MADE_NOW: AtomicUsize = AtomicUsize::new(0);
static AT_ONCE: AtomicUsize = AtomicUsize::new(0);

fn meanwhile(make: impl FnOnce() -> u64) -> u64 {
    if MADE_NOW.fetch_add(1, Ordering::Relaxed) > 0 {
        AT_ONCE.fetch_add(1, Ordering::Relaxed);
    }
    let number = make();
    MADE_NOW.fetch_sub(1, Ordering::Relaxed);
    number
}

/// How many calls began while another one was being made, up to now.
pub fn made_at_once() -> usize {
    AT_ONCE.load(Ordering::Relaxed)
}

/// The whole entries in these bytes.
fn entries_of(bytes: &[u8]) -> Vec<u16> {
    bytes.chunks_exact(2).map(|two| two[0] as u16 + 256 * two[1] as u16).collect()
}

/// Writes entries at the start of a slice, low byte first.
pub fn put_entries(slice: &mut Slice, entries: &[u16]) {
    for (two, entry) in slice.iter_mut().flat_map(|bytes| bytes.chunks_exact_mut(2)).zip(entries) {
        two[0] = (entry % 256) as u8;
        two[1] = (entry / 256) as u8;
    }
}

/// Writes three numbers of eight bytes, 0 where there are fewer values, low byte first.
pub fn put_report(slice: &mut Slice, values: &[usize]) {
    let Some(bytes) = slice else {
        return;
    };
    for place in 0..REPORT {
        let value = values.get(place / 8).copied().unwrap_or(0);
        bytes[place] = (value >> (8 * (place % 8))) as u8;
    }
}
