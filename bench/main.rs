//! Decide, beside an earlier Decide, a plain engine and a fast one: holds their answers equal on random files, then times them on tables of many kinds.
//!
//! `bench [COUNT]` compares on COUNT files, 10,000 where none is given, and measures. `bench --reach` measures Reach beside Decide. `bench --stack` says how
//! much stack Decide, Run and Reach need.

mod compare;
mod drafts;
mod engines;
#[allow(dead_code)]
#[path = "../tests/compare/exports.rs"]
mod exports;
mod fast;
mod file;
mod measure;
mod plain;
mod random;
mod reach;
mod report;
mod stack;
mod tables;

use stack::Call;
use std::process::ExitCode;

const FILES: usize = 10_000;

fn stack() {
    let cases = tables::cases();
    let most = [Call::Decide, Call::Run, Call::Reach].map(|call| stack::most(call, &cases));
    println!("this: {} bytes of stack at most, {} by Run, and {} by Reach", most[0], most[1], most[2]);
    if cfg!(beside) {
        println!("before: {} bytes of stack at most", stack::most(Call::DecideBefore, &cases));
    }
}

fn compare_and_measure(files: usize) -> Result<(), String> {
    compare::compare(files)?.say();
    println!();
    report::head();
    measure::measure(&tables::cases(), report::show)
}

fn ended(result: Result<(), String>) -> ExitCode {
    match result {
        Ok(()) => ExitCode::SUCCESS,
        Err(fault) => {
            eprintln!("{fault}");
            ExitCode::FAILURE
        }
    }
}

fn main() -> ExitCode {
    let word = std::env::args().nth(1);
    if word.as_deref() == Some("--stack") {
        stack();
        return ExitCode::SUCCESS;
    }
    if word.as_deref() == Some("--reach") {
        return ended(reach::measure());
    }
    let files = word.map_or(Some(FILES), |word| word.parse().ok());
    let Some(files) = files else {
        eprintln!("bench [COUNT] | bench --reach | bench --stack");
        return ExitCode::FAILURE;
    };
    ended(compare_and_measure(files))
}
