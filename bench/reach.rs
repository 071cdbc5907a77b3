//! Reach beside Decide in full mode, on tables whose start reaches few pairs, on tables where it reaches all, and on a no.

use crate::engines::{call, Marks, Question};
use crate::measure::{median, BATCH, LEAST_ROUNDS, MOST_ROUNDS, TABLE};
use crate::report::{digits, time};
use crate::tables::{reach_cases, Case};
use std::time::Instant;

extern "C" {
    /// Reach by the crate `bench_calls`: its answer as one number, of sixteen bits the number that turns the call back and of sixteen yes, then the count.
    fn bench_reach(file: *const u8, length: usize, demand: usize, supply: usize, state: usize) -> u64;
}

/// Yes or no, and how many pairs are reached.
#[derive(Clone, Copy)]
struct Reached {
    yes: bool,
    count: u64,
}

fn reach(asked: &Question) -> Option<Reached> {
    // The slice is lent for the length of the call, and the call asks nothing else.
    let answer = unsafe { bench_reach(asked.file.as_ptr(), asked.file.len(), asked.demand, asked.supply, asked.state) };
    (answer & 65535 == 0).then_some(Reached { yes: answer >> 16 & 65535 == 1, count: answer >> 32 })
}

/// Whether a call is carried out.
pub fn is_done(asked: &Question) -> bool {
    reach(asked).is_some()
}

/// Seconds for a call, of so many.
fn seconds(calls: u32, mut make: impl FnMut()) -> f64 {
    let start = Instant::now();
    for _ in 0..calls {
        make();
    }
    start.elapsed().as_secs_f64() / calls as f64
}

/// How many calls take as long as a batch.
fn batch(mut make: impl FnMut()) -> u32 {
    make();
    (BATCH.as_secs_f64() / seconds(3, make)).clamp(1.0, 1000.0) as u32
}

/// The medians of a call of Reach and of one of Decide, in seconds; each round calls both, a batch each.
fn medians(asked: &Question, marks: &mut Marks) -> [f64; 2] {
    let mut reaching = || _ = std::hint::black_box(reach(asked));
    let mut deciding = || _ = std::hint::black_box(call(asked, 0, marks));
    let batches = [batch(&mut reaching), batch(&mut deciding)];
    let mut times = [Vec::new(), Vec::new()];
    let start = Instant::now();
    for round in 0..MOST_ROUNDS {
        if LEAST_ROUNDS <= round && TABLE < start.elapsed() {
            break;
        }
        reaching();
        times[0].push(seconds(batches[0], &mut reaching));
        deciding();
        times[1].push(seconds(batches[1], &mut deciding));
    }
    times.map(median)
}

fn line(case: &Case, marks: &mut Marks) -> Result<(), String> {
    let verdict = call(&case.asked, 0, marks).ok_or("Decide is turned back")?;
    let found = reach(&case.asked).ok_or("Reach is turned back")?;
    if found.yes != verdict.yes {
        return Err(format!("Reach and Decide differ on {}", case.name));
    }
    let [reaching, deciding] = medians(&case.asked, marks);
    let told = if found.yes { "yes" } else { "no" };
    let ratio = digits(deciding / reaching);
    println!("| {} | {told} | {} | {} | {} | {ratio} |", case.name, found.count, time(reaching), time(deciding));
    Ok(())
}

/// Measures all tables.
pub fn measure() -> Result<(), String> {
    let mut marks = [0; 4096];
    println!("| Tables | Full mode says | Pairs reached | Reach | Decide | Decide / Reach |");
    println!("|---|---|--:|--:|--:|--:|");
    reach_cases().iter().try_for_each(|case| line(case, &mut marks))
}
