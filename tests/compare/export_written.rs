//! The questions of the case files as calls of exported functions.

use crate::answers::entry_before;
use crate::calls::LONGEST_SLICE;
use crate::cases::Program;
use crate::export_call::{put_entries, put_report, Call, Due, MARKS, REPORT, REPORTED, STEPS};
use crate::export_cases::EXPORTED;
use crate::lent::Slice;
use crate::question::{Question, HEAD_LENGTH};
use crate::written::Written;

/// The call of a case, with what its stored answer says is due; nothing where it asks for
/// no exported function, or for more room than is lent.
pub fn written_call(written: &Written) -> Option<(Call, Due)> {
    let case = written.case();
    let question = Question::read(&case.input).filter(|_| case.program == Program::Calls)?;
    let room = question.first_length.max(question.second_length);
    if !EXPORTED.contains(&question.operation) || room > LONGEST_SLICE {
        return None;
    }
    let file = Some(case.input[HEAD_LENGTH..].to_vec());
    let marks = slice_before(question.first_length);
    let steps = slice_before(question.second_length);
    let report = slice_before(REPORT);
    let call = Call { question, before: [file, marks, steps, report] };
    let due = due_by(&call, &written.due);
    Some((call, due))
}

/// A slice of so many entries, which hold what those of `calls_test` do.
fn slice_before(entries: usize) -> Slice {
    let mut slice = Some(vec![0; 2 * entries]);
    put_entries(&mut slice, &(0..entries).map(entry_before).collect::<Vec<u16>>());
    slice
}

/// What is due by a stored answer of `calls_test`: its first line has the number, the
/// place and what is returned; its others have the entries.
fn due_by(call: &Call, text: &str) -> Due {
    let numbers = |line: &str| line.split(' ').filter_map(|word| word.parse().ok()).collect();
    let lines: Vec<Vec<usize>> = text.lines().map(numbers).collect();
    let [number, place, values @ ..] = &lines[0][..] else {
        panic!("an answer begins with a number and a place");
    };
    let mut after = call.before.clone();
    for (which, line) in [MARKS, STEPS].into_iter().zip(&lines[1..]) {
        put_entries(&mut after[which], &line.iter().map(|entry| *entry as u16).collect::<Vec<_>>());
    }
    let reported = if *number == 0 { values } else { &[*place] };
    put_report(&mut after[REPORTED], reported);
    let number = *number as u16;
    Due { number, own_number: number, decision: None, after }
}
