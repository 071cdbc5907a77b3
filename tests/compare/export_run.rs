//! Compares the exported functions with what is due of them, in this process.

use crate::export_call::{made_at_once, Call, Due, LentSlices};
use crate::export_cases::call;
use crate::export_tally::ExportTally;
use crate::export_written::written_call;
use crate::lent::Lending;
use crate::random::Random;
use crate::workers::shared;
use crate::written::{read_folder, Written};
use crate::{print_all, show, Compared, Counts, Difference, COVERING_COUNT};
use std::path::Path;
use std::thread;

/// How many calls a worker takes at a time.
const BATCH: usize = 50;
/// The stack that include/slots.h names, and some for the thread itself and what it does
/// beside the calls.
const SMALL_STACK: usize = 262_144 + 32_768;

/// Compares the functions on the questions of the case files, where a folder of them is
/// named, and on so many calls made at random. The words are those behind `--exports`.
/// With `--alone` nothing is counted.
pub fn compare_exports(words: &[String]) -> Compared {
    let (lending, words) = match words.split_first() {
        Some((first, rest)) if first == "--alone" => (Lending::Alone, rest),
        _ => (Lending::Within, words),
    };
    let (count, folder) = words.split_last()?;
    let count = count.parse().ok()?;
    let written = match folder {
        [] => Vec::new(),
        [folder] => match read_folder(Path::new(folder)) {
            Ok(written) => written,
            Err(error) => return Some(Err(error)),
        },
        _ => return None,
    };
    let (asked, mut differences) = run_written(lending, &written);
    let (tally, found) = run_random(lending, count);
    let behind = |one: Difference| Difference { number: asked + one.number, ..one };
    differences.extend(found.into_iter().map(behind));
    show(&differences);
    let mut failed = differences.len();
    if lending == Lending::Within {
        tally.print();
        println!("calls made while another one was: {}", made_at_once());
        if count >= COVERING_COUNT {
            failed += print_all(tally.missing());
        }
    }
    println!("{asked} calls by case files, {count} made at random");
    Some(Ok(Counts { passed: asked + count - differences.len(), failed }))
}

/// Makes the calls that the case files ask for, in a thread with a small stack; says how
/// many these are.
fn run_written(lending: Lending, written: &[Written]) -> (usize, Vec<Difference>) {
    let call_of = |found| written_call(found).map(|(call, due)| (found, call, due));
    let calls: Vec<(&Written, Call, Due)> = written.iter().filter_map(call_of).collect();
    let mut differences = Vec::new();
    let make = || {
        for (number, (found, call, due)) in calls.iter().enumerate() {
            let lent = lend(lending, call, &mut Random::new(number as u64));
            if let Err(reason) = call.hold(due, lent) {
                let case = call.case("case file");
                let name = format!("{}, {}", found.name, call.name());
                differences.push(Difference { number, name, reason, case });
            }
        }
    };
    thread::scope(|scope| {
        let small = thread::Builder::new().stack_size(SMALL_STACK).spawn_scoped(scope, make);
        small.expect("a thread starts").join().expect("a thread ends");
    });
    (calls.len(), differences)
}

/// Makes calls at random, in two workers; the differences come in the calls' order.
fn run_random(lending: Lending, count: usize) -> (ExportTally, Vec<Difference>) {
    let mut tally = ExportTally::default();
    let mut differences = Vec::new();
    let start = <(ExportTally, Vec<Difference>)>::default;
    for (part, found) in shared(count, BATCH, start, |(tally, differences), numbers| {
        differences.extend(numbers.filter_map(|number| run_one(lending, number, tally)));
    }) {
        tally.add(part);
        differences.extend(found);
    }
    differences.sort_by_key(|difference| difference.number);
    (tally, differences)
}

/// Makes a call twice, and tells how it differs from what is due, if it does.
fn run_one(lending: Lending, number: usize, tally: &mut ExportTally) -> Option<Difference> {
    let (call, kind) = call(number);
    let due = call.due();
    let mut random = Random::new(!number as u64);
    let lent = lend(lending, &call, &mut random);
    tally.count(&call, &due, &lent);
    let first = call.hold(&due, lent);
    let held = first.and_then(|()| call.hold(&due, lend(lending, &call, &mut random)));
    let reason = held.err()?;
    let name = format!("random call {number} ({kind}), {}", call.name());
    Some(Difference { number, name, reason, case: call.case(kind) })
}

fn lend(lending: Lending, call: &Call, random: &mut Random) -> LentSlices {
    call.before.each_ref().map(|slice| lending.lend(slice, random))
}
