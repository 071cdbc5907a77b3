//! What the program `slots` prints, by the paper's section 'The program'; there no
//! resource stands.

use crate::answers::{Answer, Decision};
use crate::file::{open, refuse, Kind, Refusal, Table, LONGEST_READ};
use crate::rules::{
    count_kept, marks, rounds, run, Mode, Pair, Tables, FIN, IDLE_ROW, NO_ROW,
};

/// What `slots` prints for an input.
pub fn report(input: &[u8]) -> Answer {
    let file = &input[..input.len().min(LONGEST_READ)];
    report_file(file).unwrap_or_else(Answer::refused)
}

fn report_file(file: &[u8]) -> Result<Answer, Refusal> {
    let all = open(file)?;
    let demand_number = first_of_kind(&all, Kind::Demand)?;
    let supply_number = first_of_kind(&all, Kind::Supply)?;
    let (demand, supply) = (&all[demand_number], &all[supply_number]);
    let tables = Tables { demand, supply, standing: 0 };
    let start = Pair { demand: start_of(tables.demand), supply: start_of(tables.supply) };
    let mut text = format!("slots {} bytes {} tables\n", file.len(), all.len());
    text += &format!("demand {demand_number} supply {supply_number} ");
    text += &format!("start {} {}\n", start.demand, start.supply);
    let mut decisions = Vec::new();
    for mode in [Mode::Full, Mode::Partial] {
        let (lines, decision) = report_mode(tables, mode, start);
        text += &lines;
        decisions.push(decision);
    }
    Ok(Answer { text, number: Some(0), decisions, ..Answer::default() })
}

/// The number of the first table of a kind; a missing kind is 12 at 0.
pub fn first_of_kind(tables: &[Table], kind: Kind) -> Result<usize, Refusal> {
    match tables.iter().position(|table| table.kind == kind) {
        Some(number) => Ok(number),
        None => refuse(12, 0),
    }
}

/// State 1, or FIN where there is no other.
pub fn start_of(table: &Table) -> usize {
    if table.states == 1 {
        FIN
    } else {
        1
    }
}

/// The lines of one mode: its verdict, and the steps after a no.
fn report_mode(tables: Tables, mode: Mode, start: Pair) -> (String, Decision) {
    let marks = marks(tables, mode);
    let yes = marks[tables.entry(start)] == 0;
    let name = match mode {
        Mode::Full => "full",
        Mode::Partial => "partial",
    };
    let verdict = if yes { "yes" } else { "no" };
    let (rounds, kept) = (rounds(&marks), count_kept(&marks));
    let mut text = format!("{name} {verdict} rounds {rounds} kept {kept}\n");
    let steps = run(tables, mode, &marks, start);
    for step in &steps {
        text += &format!("step {} {}\n", row_name(step.supply_row), row_name(step.task_row));
    }
    (text, Decision { mode, yes, steps: steps.len() })
}

fn row_name(row: u16) -> String {
    match row {
        IDLE_ROW => "idle".to_string(),
        NO_ROW => "none".to_string(),
        number => number.to_string(),
    }
}
