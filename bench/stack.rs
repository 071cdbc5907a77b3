//! How much stack Decide, Run and Reach need: each is called on a stack that was filled with a pattern, and the deepest byte that no longer has it is looked for.

use crate::engines::{call, call_before, call_run, Marks, Question, Steps, MODES};
use crate::reach;
use crate::tables::Case;
use std::time::{Duration, Instant};

const SIZE: usize = 8 << 20;
const PATTERN: u8 = 0xA5;

#[derive(Clone, Copy)]
pub enum Call {
    /// The proved Decide of this tree, and of an earlier commit.
    Decide,
    DecideBefore,
    Run,
    Reach,
}

/// What is handed to the other stack, and whether the call was carried out.
struct StackCall<'a> {
    call: Call,
    asked: &'a Question,
    mode: usize,
    marks: &'a mut Marks,
    steps: &'a mut Steps,
    is_done: bool,
}

extern "C" fn run(made: &mut StackCall) {
    made.is_done = match made.call {
        Call::Decide => call(made.asked, made.mode, made.marks).is_some(),
        Call::DecideBefore => call_before(made.asked, made.mode, made.marks).is_some(),
        Call::Run => call_run(made.asked, made.mode, made.marks, made.steps),
        Call::Reach => reach::is_done(made.asked),
    };
}

/// Calls `run` with the stack pointer at `top`.
fn run_on(top: *mut u8, made: &mut StackCall) {
    // The old stack pointer is kept in a register that a callee saves.
    unsafe {
        std::arch::asm!(
            "mov r12, rsp",
            "mov rsp, {top}",
            "call {run}",
            "mov rsp, r12",
            top = in(reg) top,
            run = sym run,
            in("rdi") made,
            out("r12") _,
            clobber_abi("C"),
        );
    }
}

/// The bytes of stack that a call needs, the few of the call that leads to it among them.
fn depth(memory: &mut [u8], made: &mut StackCall) -> usize {
    memory.fill(PATTERN);
    let end = memory.as_mut_ptr_range().end;
    let top = end.wrapping_sub(end as usize % 16);
    run_on(top, made);
    let untouched = memory.iter().position(|&byte| byte != PATTERN).unwrap_or(memory.len());
    top as usize - memory.as_ptr() as usize - untouched
}

/// The most that a call needs over the tables, in both modes. One that is slow on a table of the series is spared the larger ones.
pub fn most(call: Call, cases: &[Case]) -> usize {
    let mut memory = vec![0; SIZE];
    let (mut marks, mut steps) = ([0; 4096], [0; 8192]);
    let mut is_slow = false;
    let mut most = 0;
    for case in cases.iter() {
        for mode in MODES {
            if case.in_series && is_slow {
                continue;
            }
            let start = Instant::now();
            let made = &mut StackCall { call, asked: &case.asked, mode, marks: &mut marks, steps: &mut steps, is_done: false };
            most = most.max(depth(&mut memory, made));
            assert!(made.is_done, "{} is turned back", case.name);
            is_slow |= case.in_series && Duration::from_millis(150) < start.elapsed();
        }
    }
    most
}
