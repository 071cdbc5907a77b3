//! Files with many supplies, and questions for Pick about them, by change request L6;
//! and what is told of a call of Pick.

use crate::calls::{likely_question, mode_asked, set_length_by_file};
use crate::drafts::{
    branching, cycles_or_chain, file_of, odd_tables, random_style, random_table,
    tables_in_any_order, Draft, Style, DEMAND, SUPPLY,
};
use crate::file::{open, Kind, Row, Table};
use crate::pick::{fits, picked};
use crate::question::{Operation, Question};
use crate::random::Random;
use crate::rules::{Mode, Tables};
use crate::sets::with_higher_bits;
use crate::standing::with_second_rows;

/// The most supplies that a file with a demand has.
const MOST_SUPPLIES: usize = 15;
/// How often a demand is drawn at most until a first supply beside it is what is sought.
const DEMANDS: usize = 8;
/// How often a supply is drawn at most until it is what is sought.
const SUPPLIES: usize = 8;

/// What is sought of a supply beside the demand.
#[derive(Clone, Copy)]
enum Sought {
    Any,
    Fitting,
    Failing,
    FittingInPartialModeOnly,
    /// Fitting, but not with nothing standing.
    Added,
    /// Fitting with nothing standing, but not as it is asked.
    TakenOff,
}

/// A demand, the mode and the standing set in which it is asked for, and how supplies
/// beside it are drawn.
struct Plan {
    style: Style,
    demand: Draft,
    mode: usize,
    standing: u16,
    /// A resource in which some supply rows differ.
    resource: u16,
}

impl Plan {
    /// Where the standing set is to matter, beside some demand rows stands one that
    /// requests a resource more and leads to a stuck state.
    fn drawn(random: &mut Random, sought: Sought) -> Plan {
        let style = random_style(random);
        let resources = random.pick(&[4, 16]);
        let resource = 1 << random.below(resources);
        let states = random.between(1, 4);
        let mut demand = random_table(random, DEMAND, states, style);
        let mut standing = any_standing(random);
        if matches!(sought, Sought::Added | Sought::TakenOff) {
            let second = |row: &Row| (states, row.set | resource);
            demand = with_second_rows(random, &demand, states + 1, second);
            let others = random.next() as u16 & random.next() as u16;
            standing = resource | random.pick(&[0, 0, 0, others]);
        }
        Plan { style, demand, mode: random.below(2), standing, resource }
    }

    /// A supply that is what is sought, where one was drawn.
    fn supply(&self, random: &mut Random, sought: Sought) -> Option<Draft> {
        let mut drawn = (0..SUPPLIES).map(|_| self.any_supply(random));
        drawn.find(|supply| self.is_sought(sought, supply))
    }

    /// A small supply that grants much or little.
    fn any_supply(&self, random: &mut Random) -> Draft {
        let style = Style { granted: random.pick(&[3, 6, 8]), ..self.style };
        let states = random.between(1, 4);
        let supply = random_table(random, SUPPLY, states, style);
        with_second_rows(random, &supply, states, |row| {
            (row.target as usize, row.set ^ self.resource)
        })
    }

    /// Whether a supply is what is sought.
    fn is_sought(&self, sought: Sought, supply: &Draft) -> bool {
        let demand = &table_of(Kind::Demand, &self.demand);
        let supply = &table_of(Kind::Supply, supply);
        let yes = |standing: u16, mode: Mode| fits(Tables { demand, supply, standing }, mode);
        let mode = [Mode::Full, Mode::Partial][self.mode];
        let standing = self.standing;
        match sought {
            Sought::Any => true,
            Sought::Fitting => yes(standing, mode),
            Sought::Failing => !yes(standing, mode),
            Sought::FittingInPartialModeOnly => {
                yes(standing, Mode::Partial) && !yes(standing, Mode::Full)
            }
            Sought::Added => yes(standing, mode) && !yes(0, mode),
            Sought::TakenOff => !yes(standing, mode) && yes(0, mode),
        }
    }
}

/// The table that a draft is of; its body stands in no file.
fn table_of(kind: Kind, draft: &Draft) -> Table {
    Table { kind, states: draft.states, rows: draft.rows.clone(), body: 0..0 }
}

/// No resource, one, any or all.
fn any_standing(random: &mut Random) -> u16 {
    match random.below(8) {
        0..=3 => 0,
        4 | 5 => 1 << random.below(16),
        6 => random.next() as u16,
        _ => u16::MAX,
    }
}

/// What is sought of the supplies of a file, in turn: that all fail, that all fit, that
/// some do, that fifteen fit, that the mode matters to one, that the standing set adds
/// one, that it takes one off.
fn sought_in_turn(random: &mut Random, turn: usize) -> Vec<Sought> {
    let count = random.pick(&[2, 2, 3, 5, 8, MOST_SUPPLIES]);
    let first = match turn {
        0 => return vec![Sought::Failing; count - random.below(2)],
        1 => return vec![Sought::Fitting; count],
        2 => {
            let both = [Sought::Fitting, Sought::Failing];
            return (0..count).map(|index| both[index % 2]).collect();
        }
        3 => return vec![Sought::Fitting; MOST_SUPPLIES],
        4 => Sought::FittingInPartialModeOnly,
        5 => Sought::Added,
        _ => Sought::TakenOff,
    };
    let mut all = vec![Sought::Any; count - random.below(2)];
    all[0] = first;
    all
}

/// A file and a question for Pick about it. Of eight turns seven have a demand and
/// supplies that are drawn beside it, with other demands among them.
pub fn pick_question(random: &mut Random, turn: usize) -> (Vec<u8>, Question) {
    if turn % 8 == 7 {
        let file = file_of(&tables_of_any_sort(random));
        let question = likely_question(random, &file, Operation::Pick);
        return (file, question);
    }
    let sought = sought_in_turn(random, turn % 8);
    let (plan, supplies) = drawn_supplies(random, &sought);
    let mut tables = Vec::new();
    for supply in supplies {
        insert_anywhere(random, &mut tables, supply);
    }
    let more = random.below(4).min(MOST_SUPPLIES - tables.len());
    for _ in 0..more {
        let states = random.between(1, 4);
        let other = random_table(random, DEMAND, states, plan.style);
        insert_anywhere(random, &mut tables, other);
    }
    let place = insert_anywhere(random, &mut tables, plan.demand.clone());
    let file = file_of(&tables);
    let question = question_about(random, &file, &plan, place);
    (file, question)
}

/// Tables that were not drawn for Pick.
fn tables_of_any_sort(random: &mut Random) -> Vec<Draft> {
    let mut tables = Vec::new();
    match random.below(3) {
        0 => tables.extend(tables_in_any_order(random)),
        1 => (0..random.between(1, 5)).for_each(|_| tables.extend(odd_tables(random))),
        _ => {
            for turn in 0..random.between(1, 3) {
                tables.extend(branching(random));
                tables.extend(cycles_or_chain(random, turn + 1));
            }
        }
    }
    tables
}

/// A plan, and supplies that are what is sought, each as far as such a one was drawn.
fn drawn_supplies(random: &mut Random, sought: &[Sought]) -> (Plan, Vec<Draft>) {
    let mut plan = Plan::drawn(random, sought[0]);
    let mut first = plan.supply(random, sought[0]);
    for _ in 1..DEMANDS {
        if first.is_none() {
            plan = Plan::drawn(random, sought[0]);
            first = plan.supply(random, sought[0]);
        }
    }
    let mut supplies: Vec<Draft> = first.into_iter().collect();
    for one in &sought[1..] {
        let found = plan.supply(random, *one);
        supplies.push(found.unwrap_or_else(|| plan.any_supply(random)));
    }
    (plan, supplies)
}

/// Puts a table before, between or behind others, and gives its place.
fn insert_anywhere(random: &mut Random, tables: &mut Vec<Draft>, table: Draft) -> usize {
    let place = random.below(tables.len() + 1);
    tables.insert(place, table);
    place
}

/// The question of a plan whose demand has this number: with exactly the bytes that it
/// takes, one fewer, none, or more. The numbers that Pick does not take are any.
fn question_about(random: &mut Random, file: &[u8], plan: &Plan, number: usize) -> Question {
    let mut any = || random.pick(&[0, 1, 99, 65_535, usize::MAX]);
    let mut question = Question {
        operation: Operation::Pick,
        mode: plan.mode,
        first_table: number,
        demand_state: any(),
        second_table: any(),
        supply_state: any(),
        first_length: 0,
        second_length: any().min(65_535),
        set: with_higher_bits(random, plan.standing),
    };
    set_length_by_file(&mut question, file, &open(file).unwrap_or_default());
    let exact = question.first_length;
    question.first_length = match random.below(8) {
        0..=3 => exact,
        4 => exact.saturating_sub(1),
        5 => 0,
        _ => exact + random.between(1, 20),
    };
    question
}

/// What is told of a call of Pick that was carried out.
pub const PICKS: [&str; 11] = [
    "with none listed beside a supply",
    "with all supplies listed, two or more",
    "with some supplies listed and some not",
    "with fifteen listed",
    "in full mode with fewer than in partial mode",
    "in partial mode with more than in full mode",
    "with one added by what stands",
    "with one taken off by what stands",
    "with all 16 standing",
    "for a demand behind another one",
    "beside no supply",
];

/// Which of `PICKS` a call is that listed these numbers, by holding it to the same call
/// in the other mode and to the same one with nothing standing.
pub fn sorts_of_pick(question: &Question, file: &[u8], listed: &[u8]) -> [bool; PICKS.len()] {
    let all = open(file).unwrap_or_default();
    let Some(demand) = all.get(question.first_table) else {
        return [false; PICKS.len()];
    };
    let supplies = all.iter().filter(|table| table.kind == Kind::Supply).count();
    let first_demand = all.iter().position(|table| table.kind == Kind::Demand);
    let (mode, standing) = (mode_asked(question), question.resources());
    let other = if mode == Mode::Full { Mode::Partial } else { Mode::Full };
    let in_other = picked(&all, demand, other, standing).len();
    let plain = match standing {
        0 => listed.to_vec(),
        _ => picked(&all, demand, mode, 0),
    };
    [
        listed.is_empty() && supplies > 0,
        listed.len() == supplies && supplies > 1,
        !listed.is_empty() && listed.len() < supplies,
        listed.len() == MOST_SUPPLIES,
        mode == Mode::Full && listed.len() < in_other,
        mode == Mode::Partial && listed.len() > in_other,
        listed.iter().any(|number| !plain.contains(number)),
        plain.iter().any(|number| !listed.contains(number)),
        standing == u16::MAX,
        first_demand.is_some_and(|first| first < question.first_table),
        supplies == 0,
    ]
}
