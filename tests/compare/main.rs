//! Holds the programs `slots`, `aut` and `calls_test` to the answers that the case
//! files say are due, and compares them with a separately written checker, which
//! is a direct reading of the papers, on those cases and on random ones.
//!
//! Called as `compare SLOTS AUT CALLS_TEST CASES COUNT`: the paths of the three
//! programs, the folder of the case files, and how many random cases to run. The
//! same count always gives the same cases. `tests/run` builds and calls it.
//!
//! Called as `compare --exports [--alone] [CASES] COUNT`, it compares the exported
//! functions, with which it is linked, on the questions of the case files, where their
//! folder is named, and on so many calls made at random. With `--alone` each slice is
//! lent in memory of its own, for valgrind.

mod answers;
mod asked;
mod aut;
mod batches;
mod calls;
mod cases;
mod drafts;
mod due;
mod export_call;
mod export_cases;
mod export_run;
mod export_tally;
mod export_written;
mod exports;
mod faults;
mod file;
mod graph;
mod lent;
mod merge;
mod merge_cases;
mod panel;
mod pick;
mod programs;
mod question;
mod random;
mod reach;
mod reach_cases;
mod report;
mod rules;
mod sets;
mod standing;
mod tally;
mod wide;
mod words;
mod workers;
mod written;

use batches::{Batch, Programs};
use cases::Case;
use std::ops::Range;
use std::path::{Path, PathBuf};
use std::process::ExitCode;
use tally::Tally;
use workers::shared;
use written::Written;

/// From so many random cases on, nothing that `Tally::missing` looks for may be
/// missing.
const COVERING_COUNT: usize = 1_000;
/// How many cases a worker takes at a time.
const BATCH: usize = 390;
const SHOWN_DIFFERENCES: usize = 10;

struct Arguments {
    programs: Programs,
    folder: PathBuf,
    count: usize,
}

/// A case that failed: its name, why it failed, and its input.
pub struct Difference {
    number: usize,
    name: String,
    reason: String,
    case: Case,
}

/// How many cases passed, and how many failed or never came.
pub struct Counts {
    passed: usize,
    failed: usize,
}

/// What came of comparing: an error where the cases cannot be read, nothing where the
/// arguments are not those of a call.
type Compared = Option<Result<Counts, String>>;

fn main() -> ExitCode {
    let words: Vec<String> = std::env::args().skip(1).collect();
    let compared = match words.split_first() {
        Some((first, rest)) if first == "--exports" => export_run::compare_exports(rest),
        _ => compare_programs(&words),
    };
    let counts = match compared {
        None => {
            eprintln!("called as: compare SLOTS AUT CALLS_TEST CASES COUNT");
            eprintln!("or as: compare --exports [--alone] [CASES] COUNT");
            return ExitCode::from(2);
        }
        Some(Ok(counts)) => counts,
        Some(Err(error)) => {
            println!("{error}");
            Counts { passed: 0, failed: 1 }
        }
    };
    println!("{} passed, {} failed", counts.passed, counts.failed);
    if counts.failed > 0 {
        ExitCode::from(1)
    } else {
        ExitCode::SUCCESS
    }
}

fn compare_programs(words: &[String]) -> Compared {
    let arguments = read_arguments(words)?;
    let written = match written::read_folder(&arguments.folder) {
        Ok(written) => written,
        Err(error) => return Some(Err(error)),
    };
    let (tally, differences) = run_all(&arguments, &written);
    tally.print();
    show(&differences);
    let mut failed = differences.len();
    if arguments.count >= COVERING_COUNT {
        failed += print_all(tally.missing());
    }
    println!("{} cases of case files, {} made at random", written.len(), arguments.count);
    let passed = written.len() + arguments.count - differences.len();
    Some(Ok(Counts { passed, failed }))
}

/// Prints sentences, and says how many.
fn print_all(sentences: Vec<String>) -> usize {
    for sentence in &sentences {
        println!("{sentence}");
    }
    sentences.len()
}

fn read_arguments(words: &[String]) -> Option<Arguments> {
    let [slots, aut, calls, folder, count] = words else {
        return None;
    };
    Some(Arguments {
        programs: Programs { slots: slots.clone(), aut: aut.clone(), calls: calls.clone() },
        folder: PathBuf::from(folder),
        count: count.parse().ok()?,
    })
}

/// Runs all cases, those of the case files first; the differences come in the cases'
/// order.
fn run_all(arguments: &Arguments, written: &[Written]) -> (Tally, Vec<Difference>) {
    let mut tally = Tally::new();
    let mut differences = Vec::new();
    let all = written.len() + arguments.count;
    let start = || (Tally::new(), Vec::new());
    for (part, found) in shared(all, BATCH, start, |made, numbers| {
        work(arguments, written, made, numbers);
    }) {
        tally.add(&part);
        differences.extend(found);
    }
    differences.sort_by_key(|difference| difference.number);
    (tally, differences)
}

/// Runs one batch of cases.
fn work(
    arguments: &Arguments,
    written: &[Written],
    (tally, differences): &mut (Tally, Vec<Difference>),
    numbers: Range<usize>,
) {
    let batch: Vec<(usize, Case)> =
        numbers.map(|number| (number, case_at(written, number))).collect();
    let outcomes = Batch::new(&arguments.programs, &batch).run(written, tally);
    for ((number, case), outcome) in batch.into_iter().zip(outcomes) {
        if let Err(reason) = outcome {
            let name = name_of(written, number, &case);
            differences.push(Difference { number, name, reason, case });
        }
    }
}

/// The case with this number: of the case files, or a random one.
fn case_at(written: &[Written], number: usize) -> Case {
    match written.get(number) {
        Some(found) => found.case(),
        None => cases::case(number - written.len()),
    }
}

fn name_of(written: &[Written], number: usize, case: &Case) -> String {
    match written.get(number) {
        Some(found) => found.name.clone(),
        None => format!("random case {} ({})", number - written.len(), case.kind),
    }
}

/// Prints the first differences and saves their inputs.
fn show(differences: &[Difference]) {
    let folder = std::env::temp_dir().join(format!("compare-{}", std::process::id()));
    for difference in differences.iter().take(SHOWN_DIFFERENCES) {
        println!("{}: {}", difference.name, difference.reason);
        match save(&folder, difference) {
            Ok(path) => println!("  input:    {}", path.display()),
            Err(error) => println!("  the input could not be saved: {error}"),
        }
    }
}

/// Saves an input as the program reads it.
fn save(folder: &Path, difference: &Difference) -> std::io::Result<PathBuf> {
    let (program, input) = match difference.case.program {
        cases::Program::Slots => ("slots", difference.case.input.clone()),
        cases::Program::Aut => ("aut", difference.case.input.clone()),
        cases::Program::Calls => ("calls_test", programs::questions(&[&difference.case.input])),
    };
    std::fs::create_dir_all(folder)?;
    let path = folder.join(format!("{program}-{}.input", difference.number));
    std::fs::write(&path, input)?;
    Ok(path)
}
