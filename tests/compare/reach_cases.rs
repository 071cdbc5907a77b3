//! Questions for Reach, by change request L8, and what is told of a call of Reach.

use crate::answers::answer;
use crate::calls::likely_question;
use crate::drafts::{
    branching, cycles_or_chain, draft, file_of, odd_tables, random_style, random_table,
    random_tables, table_with_rows, tables_in_any_order, Draft, DEMAND, SUPPLY,
};
use crate::file::{open, MOST_ROWS, MOST_STATES};
use crate::question::{Operation, Question};
use crate::random::Random;
use crate::reach::{is_blocked, reached};
use crate::rules::{combined_moves, count_kept, marks, Mode, Tables, FIN};
use crate::standing::{asked_about, with_second_rows};

/// How often tables are drawn at most, until Reach says what is sought.
const DRAWS: usize = 100;
/// A yes that is to come must have more pairs than this.
const MANY_PAIRS: usize = 1_000;

/// What Reach says when it is carried out; one call may count at several.
pub const REACHES: [&str; 7] = [
    "yes with the start pair alone",
    "yes with two pairs or more, but fewer than are kept",
    "yes with all pairs of states, two or more",
    "no by the start pair itself",
    "no by a pair further on",
    "yes with more than 1,000 pairs",
    "yes with another count than with nothing standing",
];
/// The first of these are sought in small tables.
const SOUGHT: usize = 5;

/// A file and a question for Reach: one that is answered as is sought, each of the first
/// answers of `REACHES` in turn; one on large tables; one on tables of any sort.
pub fn reach_question(random: &mut Random, turn: usize) -> (Vec<u8>, Question) {
    let round = turn / (SOUGHT + 2);
    let (file, mut question) = match turn % (SOUGHT + 2) {
        sought if sought < SOUGHT => sought_question(random, sought),
        SOUGHT => large_question(random, round),
        _ => about(random, round, tables_of_any_sort),
    };
    set_what_is_not_read(random, &mut question);
    (file, question)
}

/// Puts any numbers in place of the mode and the lengths.
fn set_what_is_not_read(random: &mut Random, question: &mut Question) {
    let mut any = || random.pick(&[0, 1, 99, 65_535, usize::MAX]);
    question.mode = any();
    question.first_length = any().min(65_535);
    question.second_length = any().min(65_535);
}

fn sought_question(random: &mut Random, sought: usize) -> (Vec<u8>, Question) {
    let mut drawn = about(random, 0, small_tables);
    for _ in 1..DRAWS {
        let (file, question) = &drawn;
        let count = answer(&question.before(file)).reached;
        if count.is_some_and(|count| sorts_of_reach(question, file, count)[sought]) {
            break;
        }
        drawn = about(random, 0, small_tables);
    }
    drawn
}

/// A question about tables that are made for it in this round.
fn about(
    random: &mut Random,
    round: usize,
    tables: fn(&mut Random, usize) -> Vec<Draft>,
) -> (Vec<u8>, Question) {
    let file = file_of(&tables(random, round));
    let question = likely_question(random, &file, Operation::Reach);
    (file, question)
}

/// Beside some supply rows stands one that differs in one resource.
fn small_tables(random: &mut Random, _: usize) -> Vec<Draft> {
    let style = random_style(random);
    let resource = 1 << random.below(4);
    let (demand_states, supply_states) = (random.between(1, 5), random.between(1, 4));
    let demand = random_table(random, DEMAND, demand_states, style);
    let supply = random_table(random, SUPPLY, supply_states, style);
    let supply = with_second_rows(random, &supply, supply_states, |row| {
        (row.target as usize, row.set ^ resource)
    });
    vec![demand, supply]
}

fn tables_of_any_sort(random: &mut Random, round: usize) -> Vec<Draft> {
    match round % 5 {
        0 => random_tables(random),
        1 => branching(random),
        2 => odd_tables(random),
        3 => tables_in_any_order(random),
        _ => cycles_or_chain(random, 1 + round / 5),
    }
}

/// How many sorts of large tables there are.
const LARGE: usize = 6;
/// In so many rounds each sort of large tables comes once; they take long.
const LARGE_ROUNDS: usize = 24;

/// Large tables, or tables with very many moves, otherwise cycles and chains. On the
/// longest cycles a no comes only by the last of 3,906 pairs, and a yes with all of these
/// where all resources stand.
fn large_question(random: &mut Random, round: usize) -> (Vec<u8>, Question) {
    let which = round % LARGE_ROUNDS;
    let (file, mut question) = match which {
        0 | 1 => about(random, 0, cycles_or_chain),
        2 => about(random, 0, full_tables),
        3 => about(random, 0, leading_everywhere),
        4 => about(random, 0, many_moves),
        5 => about(random, 5, cycles_or_chain),
        _ => about(random, round, cycles_or_chain),
    };
    if which < LARGE {
        (question.demand_state, question.supply_state) = (1, 1);
    }
    match which {
        0 => question.set = 0,
        1 | 2 => question.set = u16::MAX as usize,
        _ => {}
    }
    (file, question)
}

/// As many states and rows as there can be.
fn full_tables(random: &mut Random, _: usize) -> Vec<Draft> {
    let largest = |kind| table_with_rows(random, kind, MOST_STATES, MOST_ROWS);
    [DEMAND, SUPPLY].map(largest).into()
}

/// Tables of 64 states that each lead to the next one and some to FIN; nothing is
/// requested. As one demand state leads to itself too, mostly all 4,096 pairs of states
/// are reached from states 1.
fn leading_everywhere(random: &mut Random, _: usize) -> Vec<Draft> {
    let (mut demand, mut supply) = (vec![(1, 1, 0)], Vec::new());
    for state in 1..MOST_STATES {
        let next = state % (MOST_STATES - 1) + 1;
        demand.push((state, next, 0));
        supply.push((state, next, random.next() as u16));
        if random.chance(1, 8) {
            demand.push((state, FIN, 0));
        }
        if random.chance(1, 8) {
            supply.push((state, FIN, random.next() as u16));
        }
    }
    vec![draft(DEMAND, MOST_STATES, &demand), draft(SUPPLY, MOST_STATES, &supply)]
}

/// More than 4,096 moves from states 1: nothing is requested, and so many rows lead to
/// few pairs.
fn many_moves(random: &mut Random, _: usize) -> Vec<Draft> {
    let mut demand: Vec<(usize, usize, u16)> = (0..MOST_STATES).map(|to| (1, to, 0)).collect();
    for state in 2..MOST_STATES {
        demand.push((state, random.below(MOST_STATES), 0));
    }
    let count = random.between(65, 128);
    let supply: Vec<(usize, usize, u16)> =
        (0..count).map(|set| (1, random.below(2), set as u16)).collect();
    vec![draft(DEMAND, MOST_STATES, &demand), draft(SUPPLY, 2, &supply)]
}

/// Which of `REACHES` a call is that was carried out and gave this count, 0 on a no.
pub fn sorts_of_reach(question: &Question, file: &[u8], count: usize) -> [bool; REACHES.len()] {
    let all = open(file).unwrap_or_default();
    let Some((tables, start)) = asked_about(question, &all) else {
        return [false; REACHES.len()];
    };
    let by_start = is_blocked(&combined_moves(tables, start));
    let plain = reached(Tables { standing: 0, ..tables }, start);
    [
        count == 1,
        count > 1 && count < count_kept(&marks(tables, Mode::Full)),
        count > 1 && count == tables.count_of_pairs(),
        count == 0 && by_start,
        count == 0 && !by_start,
        count > MANY_PAIRS,
        count > 0 && plain.is_some_and(|plain| plain != count),
    ]
}
