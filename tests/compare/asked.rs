//! The questions of case files.

use crate::cases::Program;
use crate::question::{Operation, Question};
use crate::words::Words;

/// What stands in a question in place of a number that its call does not take.
const IGNORED: usize = 99;

/// A question with the file it is about.
pub struct Asked {
    pub program: Program,
    pub input: Vec<u8>,
    /// Nothing for a case of `slots` or `aut`, or where there is no whole question.
    pub question: Option<Question>,
}

/// A question about a file.
pub fn asked(file: Vec<u8>, mut words: Words) -> Result<Asked, String> {
    let word = words.take()?;
    if word == "slots" || word == "aut" {
        words.end()?;
        let program = if word == "slots" { Program::Slots } else { Program::Aut };
        return Ok(Asked { program, input: file, question: None });
    }
    if word == "operation" || word == "head" {
        let number = words.number()?;
        words.end()?;
        return Ok(no_question(file, &word, number));
    }
    let question = question_of(&word, &mut words)?;
    words.end()?;
    let input = question.before(&file);
    Ok(Asked { program: Program::Calls, input, question: Some(question) })
}

/// An operation that is not known, or only the first bytes of a head.
fn no_question(file: Vec<u8>, word: &str, number: usize) -> Asked {
    let mut input = blank(Operation::Open).before(&file);
    if word == "operation" {
        input[..8].copy_from_slice(&(number as u64).to_le_bytes());
    } else {
        input.truncate(number);
    }
    Asked { program: Program::Calls, input, question: None }
}

/// A question of which nothing is said yet.
fn blank(operation: Operation) -> Question {
    Question {
        operation,
        mode: IGNORED,
        first_table: IGNORED,
        demand_state: IGNORED,
        second_table: IGNORED,
        supply_state: IGNORED,
        first_length: IGNORED,
        second_length: IGNORED,
        set: IGNORED,
    }
}

fn question_of(word: &str, words: &mut Words) -> Result<Question, String> {
    match word {
        "open" => Ok(blank(Operation::Open)),
        "constants" => Ok(blank(Operation::Constants)),
        "readers" => Ok(Question { first_table: words.number()?, ..blank(Operation::Readers) }),
        "body" => Ok(Question { first_table: words.number()?, ..blank(Operation::Body) }),
        "moves" => pair_question(Operation::Moves, words),
        "decide" => pair_question(Operation::Decide, words),
        "run" => pair_question(Operation::Run, words),
        "explain" => pair_question(Operation::Explain, words),
        "graph" => pair_question(Operation::Graph, words),
        "reach" => pair_question(Operation::Reach, words),
        "join" => join_question(Operation::Join, words),
        "merge" => join_question(Operation::Merge, words),
        "pick" => pick_question(words),
        "report" => {
            words.take_this("room")?;
            Ok(Question { first_length: words.number()?, ..blank(Operation::Report) })
        }
        other => Err(format!("'{other}' is no question")),
    }
}

/// `FIRST SECOND [common SET] room BYTES`, the set for Join alone.
fn join_question(operation: Operation, words: &mut Words) -> Result<Question, String> {
    let mut question = blank(operation);
    question.first_table = words.number()?;
    question.second_table = words.number()?;
    if operation == Operation::Join {
        question.set = words.set_behind("common")?;
    }
    words.take_this("room")?;
    question.first_length = words.number()?;
    Ok(question)
}

/// `MODE DEMAND [standing SET] room BYTES`.
fn pick_question(words: &mut Words) -> Result<Question, String> {
    let mut question = blank(Operation::Pick);
    question.mode = mode_of(words)?;
    question.first_table = words.number()?;
    question.set = words.set_behind("standing")?;
    words.take_this("room")?;
    question.first_length = words.number()?;
    Ok(question)
}

/// `full`, `partial`, or a number.
fn mode_of(words: &mut Words) -> Result<usize, String> {
    match words.peek() {
        "full" | "partial" => Ok((words.take()? == "partial") as usize),
        _ => words.number(),
    }
}

/// `[MODE] DEMAND SUPPLY from STATE STATE [standing SET] room ENTRIES [ENTRIES]`, the
/// mode for Decide, Run and Explain, the second number of entries for Run and Explain, and
/// no room for Reach.
fn pair_question(operation: Operation, words: &mut Words) -> Result<Question, String> {
    let mut question = blank(operation);
    if [Operation::Decide, Operation::Run, Operation::Explain].contains(&operation) {
        question.mode = mode_of(words)?;
    }
    question.first_table = words.number()?;
    question.second_table = words.number()?;
    words.take_this("from")?;
    question.demand_state = words.number()?;
    question.supply_state = words.number()?;
    question.set = words.set_behind("standing")?;
    if operation == Operation::Reach {
        return Ok(question);
    }
    words.take_this("room")?;
    question.first_length = words.number()?;
    question.second_length = match operation {
        Operation::Run | Operation::Explain => words.number()?,
        Operation::Graph => IGNORED,
        _ => 0,
    };
    Ok(question)
}
