//! What each call answers, as the text that `calls_test` prints: the number and
//! place, the values returned, and the final contents of what was lent.

use crate::file::{open, refuse, Kind, Refusal, Row, Table, MOST_ROWS, MOST_STATES};
use crate::graph::{graph, Graph};
use crate::merge::merge;
use crate::pick::picked;
use crate::question::{Operation, Question, HEAD_LENGTH};
use crate::reach::reached;
use crate::report::report;
use crate::rules::{
    combined_moves, count_kept, explain, join, marks, rounds, run, Mode, Pair, Tables, Triple,
};

/// The expected output of a program, with what is counted of it.
#[derive(Default)]
pub struct Answer {
    pub text: String,
    /// 0 for carried out, else the number; nothing where nothing is printed.
    pub number: Option<u16>,
    pub decisions: Vec<Decision>,
    /// The graph that the output tells of, where there is one.
    pub graph: Option<Graph>,
    pub explanation: Option<Explanation>,
    /// The numbers that Pick lists.
    pub picked: Option<Vec<u8>>,
    /// The count of Reach, 0 on a no.
    pub reached: Option<usize>,
}

impl Answer {
    /// What a program that prints a text prints in place of it.
    pub fn refused(refusal: Refusal) -> Answer {
        let text = format!("refused {} at {}\n", refusal.number, refusal.place);
        Answer { text, number: Some(refusal.number), ..Answer::default() }
    }
}

/// A decision, with the length of the run from its start where one was asked.
#[derive(Clone, Copy)]
pub struct Decision {
    pub mode: Mode,
    pub yes: bool,
    pub steps: usize,
}

/// What explains the mark of a pair.
pub struct Explanation {
    pub mode: Mode,
    pub mark: u16,
    pub triples: Vec<Triple>,
}

/// What was lent, for the call to write into.
pub struct Lent {
    pub first: Vec<u16>,
    pub second: Vec<u16>,
}

/// What a call that is carried out returns.
#[derive(Default)]
pub struct Returned {
    pub values: Vec<usize>,
    part: Vec<u8>,
    pub decisions: Vec<Decision>,
    graph: Option<Graph>,
    explanation: Option<Explanation>,
    picked: Option<Vec<u8>>,
    reached: Option<usize>,
}

fn returned(values: Vec<usize>) -> Returned {
    Returned { values, ..Returned::default() }
}

/// What `calls_test` answers to a question.
pub fn answer(input: &[u8]) -> Answer {
    let Some(question) = Question::read(input) else {
        return Answer::default();
    };
    match question.operation {
        Operation::Readers => return only(readers(&question, &input[HEAD_LENGTH..])),
        Operation::Constants => return only(constants()),
        _ => {}
    }
    let mut lent = lend(&question);
    let result = call(&question, &input[HEAD_LENGTH..], &mut lent);
    let (number, place, done) = match result {
        Ok(done) => (0, 0, done),
        Err(refusal) => (refusal.number, refusal.place, returned(Vec::new())),
    };
    let mut text = first_line(number, place, &done.values);
    match question.operation {
        Operation::Open | Operation::Reach => {}
        Operation::Body => push_line(&mut text, &done.part),
        Operation::Moves | Operation::Decide | Operation::Run | Operation::Explain => {
            push_line(&mut text, &lent.first);
            push_line(&mut text, &lent.second);
        }
        _ => push_line(&mut text, &lent.first),
    }
    let Returned { decisions, graph, explanation, picked, reached, .. } = done;
    Answer { text, number: Some(number), decisions, graph, explanation, picked, reached }
}

/// An answer that is never turned back.
fn only(text: String) -> Answer {
    Answer { text, number: Some(0), ..Answer::default() }
}

/// The fields of an entry of the contents and of a row of a body, each at its
/// number in the file, where a byte past the end counts as 0; and the body that
/// the entry tells of, nothing where the file ends before it does.
fn readers(question: &Question, file: &[u8]) -> String {
    let bytes = |start: Option<usize>, place: usize| -> u16 {
        let found = start.and_then(|start| start.checked_add(place));
        found.and_then(|place| file.get(place)).map_or(0, |byte| *byte as u16)
    };
    let index = question.first_table;
    let entry = index.checked_mul(6).and_then(|start| start.checked_add(2));
    let row = index.checked_mul(4);
    let mut text = String::new();
    let two = |start, place| bytes(start, place) + 256 * bytes(start, place + 1);
    let (rows, offset) = (two(entry, 2), two(entry, 4));
    push_line(&mut text, &[bytes(entry, 0), bytes(entry, 1), rows, offset]);
    push_line(&mut text, &[bytes(row, 0), bytes(row, 1), two(row, 2)]);
    let start = offset as usize;
    push_line(&mut text, file.get(start..start + 4 * rows as usize).unwrap_or(&[]));
    text
}

/// FIN, the idle row, no response, the kinds demand and supply; the most
/// resources, states, rows, tables and bytes.
fn constants() -> String {
    "0 65535 65534 1 2 16 64 512 16 32866\n".to_string()
}

/// The number, the place and three values, 0 where there are fewer.
pub fn first_line(number: u16, place: usize, values: &[usize]) -> String {
    let value = |index: usize| values.get(index).copied().unwrap_or(0);
    format!("{number} {place} {} {} {}\n", value(0), value(1), value(2))
}

/// Adds a line of numbers separated by one space.
pub fn push_line<N: Copy + Into<u16>>(text: &mut String, numbers: &[N]) {
    for (index, number) in numbers.iter().enumerate() {
        if index > 0 {
            text.push(' ');
        }
        push_number(text, (*number).into());
    }
    text.push('\n');
}

fn push_number(text: &mut String, number: u16) {
    if number >= 10 {
        push_number(text, number / 10);
    }
    text.push((b'0' + (number % 10) as u8) as char);
}

/// What entry i of a lent slice of 16-bit numbers holds before the call.
pub fn entry_before(i: usize) -> u16 {
    (50_000 + i % 499) as u16
}

/// What byte i of a lent slice of bytes holds before the call.
pub fn byte_before(i: usize) -> u8 {
    (i % 251) as u8
}

/// The lent slices as they stand before the call. The bytes lent to Join, Merge,
/// Report, Graph and Pick are held as numbers here.
fn lend(question: &Question) -> Lent {
    let numbers = |length: usize| (0..length).map(entry_before).collect();
    let bytes = |length: usize| (0..length).map(|i| byte_before(i) as u16).collect();
    match question.operation {
        Operation::Join
        | Operation::Merge
        | Operation::Report
        | Operation::Graph
        | Operation::Pick => Lent { first: bytes(question.first_length), second: Vec::new() },
        Operation::Moves | Operation::Decide | Operation::Run | Operation::Explain => Lent {
            first: numbers(question.first_length),
            second: numbers(question.second_length),
        },
        _ => Lent { first: Vec::new(), second: Vec::new() },
    }
}

/// Makes a call of the checker here; one that is turned back leaves what was lent.
pub fn call(question: &Question, file: &[u8], lent: &mut Lent) -> Result<Returned, Refusal> {
    let opened = open(file);
    match question.operation {
        Operation::Open => Ok(returned(vec![opened?.len()])),
        Operation::Body => call_body(question, file, &opened?),
        Operation::Moves => call_moves(question, &opened?, lent),
        Operation::Decide => call_decide(question, &opened?, lent),
        Operation::Run => call_run(question, &opened?, lent),
        Operation::Join => call_join(question, &opened?, lent, Kind::Demand),
        Operation::Merge => call_join(question, &opened?, lent, Kind::Supply),
        Operation::Graph => call_graph(question, &opened?, lent),
        Operation::Explain => call_explain(question, &opened?, lent),
        Operation::Pick => call_pick(question, &opened?, lent),
        Operation::Reach => call_reach(question, &opened?),
        _ => call_report(file, lent),
    }
}

fn call_body(question: &Question, file: &[u8], tables: &[Table]) -> Result<Returned, Refusal> {
    match tables.get(question.first_table) {
        None => refuse(11, 0),
        Some(table) => {
            let part = file[table.body.clone()].to_vec();
            Ok(Returned { part, ..Returned::default() })
        }
    }
}

/// The two tables asked for: 11 for the first, then the second; then 12.
fn two_tables<'a>(
    question: &Question,
    tables: &'a [Table],
    kinds: [Kind; 2],
) -> Result<[&'a Table; 2], Refusal> {
    if question.first_table >= tables.len() || question.second_table >= tables.len() {
        return refuse(11, 0);
    }
    let found = [&tables[question.first_table], &tables[question.second_table]];
    if found[0].kind != kinds[0] || found[1].kind != kinds[1] {
        return refuse(12, 0);
    }
    Ok(found)
}

/// The demand and supply tables with the standing resources, and the pair of
/// states: 11, 12, then 13.
fn tables_and_pair<'a>(
    question: &Question,
    tables: &'a [Table],
) -> Result<(Tables<'a>, Pair), Refusal> {
    let [demand, supply] = two_tables(question, tables, [Kind::Demand, Kind::Supply])?;
    if question.demand_state >= demand.states || question.supply_state >= supply.states {
        return refuse(13, 0);
    }
    let pair = Pair { demand: question.demand_state, supply: question.supply_state };
    Ok((Tables { demand, supply, standing: question.resources() }, pair))
}

fn mode_of(question: &Question) -> Result<Mode, Refusal> {
    match question.mode {
        0 => Ok(Mode::Full),
        1 => Ok(Mode::Partial),
        _ => refuse(15, 0),
    }
}

fn call_moves(
    question: &Question,
    tables: &[Table],
    lent: &mut Lent,
) -> Result<Returned, Refusal> {
    let (tables, pair) = tables_and_pair(question, tables)?;
    let moves = combined_moves(tables, pair);
    if lent.first.len() < 5 * moves.len() {
        return refuse(14, 0);
    }
    for (index, combined) in moves.iter().enumerate() {
        lent.first[5 * index] = combined.left;
        lent.first[5 * index + 1] = combined.consumed;
        lent.first[5 * index + 2] = combined.unmet;
        lent.first[5 * index + 3] = combined.demand_target as u16;
        lent.first[5 * index + 4] = combined.supply_target as u16;
    }
    Ok(returned(vec![moves.len()]))
}

fn call_decide(
    question: &Question,
    tables: &[Table],
    lent: &mut Lent,
) -> Result<Returned, Refusal> {
    let (tables, pair) = tables_and_pair(question, tables)?;
    let mode = mode_of(question)?;
    if lent.first.len() < tables.count_of_pairs() {
        return refuse(14, 0);
    }
    let marks = marks(tables, mode);
    lent.first[..marks.len()].copy_from_slice(&marks);
    let yes = marks[tables.entry(pair)] == 0;
    let values = vec![yes as usize, count_kept(&marks), rounds(&marks) as usize];
    let decisions = vec![Decision { mode, yes, steps: 0 }];
    Ok(Returned { values, decisions, ..Returned::default() })
}

fn call_run(question: &Question, tables: &[Table], lent: &mut Lent) -> Result<Returned, Refusal> {
    let (tables, pair) = tables_and_pair(question, tables)?;
    let mode = mode_of(question)?;
    let count = tables.count_of_pairs();
    if lent.first.len() < count || lent.second.len() < 2 * count {
        return refuse(14, 0);
    }
    let marks = marks(tables, mode);
    lent.first[..count].copy_from_slice(&marks);
    let steps = run(tables, mode, &marks, pair);
    for (index, step) in steps.iter().enumerate() {
        lent.second[2 * index] = step.supply_row;
        lent.second[2 * index + 1] = step.task_row;
    }
    let yes = marks[tables.entry(pair)] == 0;
    let decisions = vec![Decision { mode, yes, steps: steps.len() }];
    Ok(Returned { values: vec![steps.len()], decisions, ..Returned::default() })
}

/// Join for two demand tables, Merge for two supply tables.
fn call_join(
    question: &Question,
    tables: &[Table],
    lent: &mut Lent,
    kind: Kind,
) -> Result<Returned, Refusal> {
    let [first, second] = two_tables(question, tables, [kind; 2])?;
    let states = first.states * second.states;
    if states > MOST_STATES {
        return refuse(16, 0);
    }
    let rows = match kind {
        Kind::Demand => join(first, second, question.resources()),
        Kind::Supply => merge(first, second),
    };
    if rows.len() > MOST_ROWS {
        return refuse(17, 0);
    }
    if lent.first.len() < 4 * rows.len() {
        return refuse(14, 0);
    }
    let bytes: Vec<u8> = rows.iter().flat_map(body_form).collect();
    put_bytes(&bytes, lent);
    Ok(returned(vec![states, rows.len()]))
}

/// The text of `slots` for the file. That of a refused file is a text too, so
/// only a slice shorter than the text is turned back.
fn call_report(file: &[u8], lent: &mut Lent) -> Result<Returned, Refusal> {
    let printed = report(file);
    let bytes = printed.text.as_bytes();
    if lent.first.len() < bytes.len() {
        return refuse(14, 0);
    }
    put_bytes(bytes, lent);
    let values = vec![bytes.len()];
    Ok(Returned { values, decisions: printed.decisions, ..Returned::default() })
}

fn call_graph(
    question: &Question,
    tables: &[Table],
    lent: &mut Lent,
) -> Result<Returned, Refusal> {
    let (tables, start) = tables_and_pair(question, tables)?;
    let graph = graph(tables, start);
    let text = graph.text();
    if lent.first.len() < text.len() {
        return refuse(14, 0);
    }
    put_bytes(text.as_bytes(), lent);
    let values = vec![text.len()];
    Ok(Returned { values, graph: Some(graph), ..Returned::default() })
}

fn call_explain(
    question: &Question,
    tables: &[Table],
    lent: &mut Lent,
) -> Result<Returned, Refusal> {
    let (tables, pair) = tables_and_pair(question, tables)?;
    let mode = mode_of(question)?;
    let count = tables.count_of_pairs();
    if lent.first.len() < count {
        return refuse(14, 0);
    }
    let marks = marks(tables, mode);
    let triples = explain(tables, mode, &marks, pair);
    if lent.second.len() < 3 * triples.len() {
        return refuse(14, 0);
    }
    lent.first[..count].copy_from_slice(&marks);
    for (index, triple) in triples.iter().enumerate() {
        lent.second[3 * index] = triple.supply_row;
        lent.second[3 * index + 1] = triple.task_row;
        lent.second[3 * index + 2] = triple.mark;
    }
    let values = vec![triples.len()];
    let explanation = Some(Explanation { mode, mark: marks[tables.entry(pair)], triples });
    Ok(Returned { values, explanation, ..Returned::default() })
}

fn call_pick(question: &Question, tables: &[Table], lent: &mut Lent) -> Result<Returned, Refusal> {
    let Some(demand) = tables.get(question.first_table) else {
        return refuse(11, 0);
    };
    if demand.kind != Kind::Demand {
        return refuse(12, 0);
    }
    let mode = mode_of(question)?;
    let numbers = picked(tables, demand, mode, question.resources());
    if lent.first.len() < numbers.len() {
        return refuse(14, 0);
    }
    put_bytes(&numbers, lent);
    let values = vec![numbers.len()];
    Ok(Returned { values, picked: Some(numbers), ..Returned::default() })
}

fn call_reach(question: &Question, tables: &[Table]) -> Result<Returned, Refusal> {
    let (tables, start) = tables_and_pair(question, tables)?;
    let reached = reached(tables, start);
    let (yes, count) = (reached.is_some(), reached.unwrap_or(0));
    let values = vec![yes as usize, count];
    let decisions = vec![Decision { mode: Mode::Full, yes, steps: 0 }];
    Ok(Returned { values, decisions, reached: Some(count), ..Returned::default() })
}

/// Writes bytes at the start of the first slice lent.
fn put_bytes(bytes: &[u8], lent: &mut Lent) {
    for (place, byte) in bytes.iter().enumerate() {
        lent.first[place] = *byte as u16;
    }
}

/// The four bytes of a row: from, target, set.
pub fn body_form(row: &Row) -> [u8; 4] {
    let set = row.set.to_le_bytes();
    [row.from, row.target, set[0], set[1]]
}
