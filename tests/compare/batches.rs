//! Runs a batch of cases: all questions for `calls_test` in one process, and a
//! process for each case of `slots` or `aut`.

use crate::answers::{answer, Answer};
use crate::aut::read_back;
use crate::cases::{Case, Program};
use crate::graph::printed;
use crate::merge::hold_to_properties;
use crate::programs::{answers, questions, run, written_bytes, Ended};
use crate::reach::hold_to_decide;
use crate::report::report;
use crate::tally::Tally;
use crate::written::Written;

const SHOWN_CHARACTERS: usize = 200;

/// The paths of the programs.
pub struct Programs {
    pub slots: String,
    pub aut: String,
    pub calls: String,
}

/// What came of a case: nothing to say, or why it failed.
type Outcome = Result<(), String>;

pub struct Batch<'a> {
    programs: &'a Programs,
    cases: &'a [(usize, Case)],
}

impl<'a> Batch<'a> {
    pub fn new(programs: &'a Programs, cases: &'a [(usize, Case)]) -> Batch<'a> {
        Batch { programs, cases }
    }

    /// Runs all cases. The outcomes come in their order.
    pub fn run(&self, written: &[Written], tally: &mut Tally) -> Vec<Outcome> {
        let asked: Vec<usize> =
            (0..self.cases.len()).filter(|at| self.case(*at).program == Program::Calls).collect();
        let (came, expected) = self.ask(&asked, || self.expect(tally));
        let mut outcomes: Vec<Outcome> = Vec::new();
        for (at, answer) in expected.iter().enumerate() {
            let due = written.get(self.cases[at].0).map(|found| &found.due[..]);
            outcomes.push(hold(self.case(at), due, &answer.text));
        }
        for (at, came) in asked.iter().zip(came) {
            self.judge(&mut outcomes[*at], written, *at, &expected[*at], came);
        }
        for at in 0..self.cases.len() {
            let path = match self.case(at).program {
                Program::Slots => Some(&self.programs.slots),
                Program::Aut => Some(&self.programs.aut),
                Program::Calls => None,
            };
            if let Some(path) = path {
                let came = self.start(path, at);
                self.judge(&mut outcomes[at], written, at, &expected[at], came);
            }
        }
        outcomes
    }

    fn case(&self, at: usize) -> &Case {
        &self.cases[at].1
    }

    /// What the checker here answers in each case.
    fn expect(&self, tally: &mut Tally) -> Vec<Answer> {
        let mut expected = Vec::new();
        for (_, case) in self.cases {
            let answer = match case.program {
                Program::Slots => report(&case.input),
                Program::Aut => printed(&case.input),
                Program::Calls => answer(&case.input),
            };
            tally.count(case.program, &case.input, &answer);
            expected.push(answer);
        }
        expected
    }

    /// Puts what came of the program into a case's outcome.
    fn judge(
        &self,
        outcome: &mut Outcome,
        written: &[Written],
        at: usize,
        expected: &Answer,
        came: Result<Vec<u8>, String>,
    ) {
        let due = match written.get(self.cases[at].0) {
            Some(found) => found.due.as_bytes(),
            None => expected.text.as_bytes(),
        };
        let held = came.and_then(|came| {
            let same = compare(due, &came);
            let read = self.read_back(at, expected, &came);
            match (same, read) {
                (Err(same), Err(read)) => Err(format!("{same}\n  {read}")),
                (same, read) => same.and(read),
            }
        });
        if let Err(reason) = held {
            *outcome = Err(format!("the program: {reason}"));
        }
    }

    /// Reads back the text of a graph that came, where one is due.
    fn read_back(&self, at: usize, expected: &Answer, came: &[u8]) -> Outcome {
        let Some(graph) = &expected.graph else {
            return Ok(());
        };
        let read = match self.case(at).program {
            Program::Calls => written_bytes(came).and_then(|text| read_back(&text, graph)),
            _ => read_back(came, graph),
        };
        read.map_err(|reason| format!("the reader of .aut: {reason}"))
    }

    fn start(&self, path: &str, at: usize) -> Result<Vec<u8>, String> {
        let case = self.case(at);
        let (ended, ()) = run(path, &case.input, case.pieces, || ());
        match ended.fault {
            None => Ok(ended.output),
            Some(fault) => Err(fault),
        }
    }

    /// The answers of `calls_test` to these cases, while `work` is done. A case
    /// at which the program ends is told so, and those behind it are asked anew.
    fn ask<T>(
        &self,
        asked: &[usize],
        work: impl FnOnce() -> T,
    ) -> (Vec<Result<Vec<u8>, String>>, T) {
        let (ended, worked) = self.start_calls(asked, work);
        let mut came = taken(&ended, asked.len());
        while came.len() < asked.len() {
            let (again, ()) = self.start_calls(&asked[came.len()..], || ());
            let more = taken(&again, asked.len() - came.len());
            came.extend(more);
        }
        (came, worked)
    }

    fn start_calls<T>(&self, asked: &[usize], work: impl FnOnce() -> T) -> (Ended, T) {
        let inputs: Vec<&[u8]> = asked.iter().map(|at| &self.case(*at).input[..]).collect();
        let pieces = asked.iter().map(|at| self.case(*at).pieces).max().unwrap_or(1);
        run(&self.programs.calls, &questions(&inputs), pieces, work)
    }
}

/// The answers to `count` questions, as far as they came; the first that did not
/// come is told why. Where too many came, all are in doubt.
fn taken(ended: &Ended, count: usize) -> Vec<Result<Vec<u8>, String>> {
    let came = answers(&ended.output);
    if came.len() > count {
        let reason = format!("{} answers came to {count} questions", came.len());
        return vec![Err(reason); count];
    }
    let mut all: Vec<Result<Vec<u8>, String>> =
        came.iter().map(|answer| Ok(answer.to_vec())).collect();
    if all.len() < count {
        let fault = ended.fault.as_deref().unwrap_or("ended");
        all.push(Err(format!("{fault}, with no answer to this question")));
    } else if let (Some(fault), Some(last)) = (&ended.fault, all.last_mut()) {
        *last = Err(format!("{fault}, after the answer to this question"));
    }
    all
}

/// Holds the checker here to the answer that is due, where one is written down, and
/// what is due of Reach to Decide, of Merge to the two properties of its live pairs.
fn hold(case: &Case, due: Option<&str>, expected: &str) -> Outcome {
    let due = due.unwrap_or(expected);
    let held = match case.program {
        Program::Calls => {
            hold_to_decide(&case.input, due).and(hold_to_properties(&case.input, due))
        }
        _ => Ok(()),
    };
    compare(due.as_bytes(), expected.as_bytes())
        .and(held)
        .map_err(|reason| format!("the checker of tests/compare: {reason}"))
}

/// Compares two outputs; where they differ, says so of the first such line.
fn compare(due: &[u8], came: &[u8]) -> Outcome {
    if due == came {
        return Ok(());
    }
    let same = due.iter().zip(came).take_while(|(one, other)| one == other).count();
    let before = &due[..same];
    let line_number = 1 + before.iter().filter(|byte| **byte == b'\n').count();
    let line_start = before.iter().rposition(|byte| *byte == b'\n').map_or(0, |place| place + 1);
    let shown_from = line_start.max(same.saturating_sub(SHOWN_CHARACTERS / 2));
    Err(format!(
        "line {line_number} from character {}\n  due:      {}\n  came:     {}",
        shown_from - line_start + 1,
        rest_of_line(due, shown_from),
        rest_of_line(came, shown_from)
    ))
}

/// A line from a place on, cut short; says where an output ends without it.
fn rest_of_line(output: &[u8], place: usize) -> String {
    let rest = &output[place..];
    if rest.is_empty() {
        return "(the output ends here)".to_string();
    }
    let length = rest.iter().position(|byte| *byte == b'\n');
    let line = &rest[..length.unwrap_or(rest.len()).min(SHOWN_CHARACTERS)];
    let mark = if length.is_none() { " (no line feed)" } else { "" };
    format!("{}{mark}", String::from_utf8_lossy(line))
}
