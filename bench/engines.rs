//! The engines that are compared, each called in the same way.

use crate::exports::{self, Numbers};
use crate::fast::Fast;
use crate::file::MOST_STATES;
use crate::plain;
use std::time::{Duration, Instant};

/// What is asked of an engine: the marks of all pairs of two tables, started from the same state of both.
pub struct Question {
    pub file: Vec<u8>,
    pub demand: usize,
    pub supply: usize,
    pub state: usize,
}

/// What Decide returns: yes or no for the start pair, the count kept, and rounds.
#[derive(Clone, Copy, PartialEq, Eq, Debug)]
pub struct Verdict {
    pub yes: bool,
    pub kept: u16,
    pub rounds: u16,
}

const PAIRS: usize = MOST_STATES * MOST_STATES;

pub type Marks = [u16; PAIRS];

pub type Steps = [u16; 2 * PAIRS];

#[derive(Clone, Copy, PartialEq, Eq)]
pub enum Engine {
    /// The proved Decide of this tree.
    This,
    /// The proved Decide of an earlier commit.
    Before,
    Plain,
    Fast,
}

pub const MODES: [usize; 2] = [0, 1];

/// The engines that this program has.
pub fn engines() -> Vec<Engine> {
    let mut all = vec![Engine::This, Engine::Plain, Engine::Fast];
    if cfg!(beside) {
        all.insert(1, Engine::Before);
    }
    all
}

impl Engine {
    pub fn name(self) -> &'static str {
        match self {
            Engine::This => "this",
            Engine::Before => "before",
            Engine::Plain => "plain",
            Engine::Fast => "fast",
        }
    }
}

#[cfg(beside)]
extern "C" {
    /// The Decide of an earlier commit, by its crate `bench_calls`: from the same state of both tables, with its answer as one number, of sixteen bits
    /// each of the number that turns the call back, yes, the count kept, and rounds.
    #[cfg(before_packed)]
    fn before_decide(file: *const u8, length: usize, demand: usize, supply: usize, state: usize, mode: usize, marks: *mut u16, room: usize) -> u64;

    /// The same of a commit that has the crate `exports`.
    #[cfg(not(before_packed))]
    fn before_decide(
        file: *const u8,
        file_length: usize,
        demand: u64,
        supply: u64,
        demand_state: u64,
        supply_state: u64,
        mode: u64,
        standing: u16,
        marks: *mut u8,
        marks_length: usize,
        report: *mut u8,
        report_length: usize,
    ) -> u64;
}

/// A call of the proved Decide of this tree.
pub fn call(asked: &Question, mode: usize, marks: &mut Marks) -> Option<Verdict> {
    let mut report = [0; 3];
    let number = exports::decide(Some(&asked.file), &numbers(asked, mode), Some(bytes_of(marks)), Some(bytes_of(&mut report)));
    verdict(number, report)
}

/// A call of the proved Decide before.
#[cfg(all(beside, not(before_packed)))]
pub fn call_before(asked: &Question, mode: usize, marks: &mut Marks) -> Option<Verdict> {
    let mut report = [0; 3];
    let n = numbers(asked, mode);
    let (file, marks, told) = (&asked.file, bytes_of(marks), bytes_of(&mut report));
    // The slices are lent for the length of the call, and the call asks nothing else.
    let number = unsafe {
        before_decide(
            file.as_ptr(),
            file.len(),
            n.demand,
            n.supply,
            n.demand_state,
            n.supply_state,
            n.mode,
            n.standing,
            marks.as_mut_ptr(),
            marks.len(),
            told.as_mut_ptr(),
            told.len(),
        )
    };
    verdict(number, report)
}

#[cfg(all(beside, before_packed))]
pub fn call_before(asked: &Question, mode: usize, marks: &mut Marks) -> Option<Verdict> {
    let file = &asked.file;
    // The slices are lent for the length of the call, and the call asks nothing else.
    let answer = unsafe { before_decide(file.as_ptr(), file.len(), asked.demand, asked.supply, asked.state, mode, marks.as_mut_ptr(), marks.len()) };
    let part = |at: u32| (answer >> at) as u16;
    verdict((answer & 65535) as u64, [part(16), part(32), part(48)].map(u64::from))
}

#[cfg(not(beside))]
pub use self::call as call_before;

/// A call of the proved Run: whether it is carried out.
pub fn call_run(asked: &Question, mode: usize, marks: &mut Marks, steps: &mut Steps) -> bool {
    let mut report = [0u64; 3];
    exports::run(Some(&asked.file), &numbers(asked, mode), Some(bytes_of(marks)), Some(bytes_of(steps)), Some(bytes_of(&mut report))) == 0
}

fn numbers(asked: &Question, mode: usize) -> Numbers {
    let state = asked.state as u64;
    Numbers { demand: asked.demand as u64, supply: asked.supply as u64, demand_state: state, supply_state: state, mode: mode as u64, standing: 0 }
}

fn verdict(number: u64, [yes, kept, rounds]: [u64; 3]) -> Option<Verdict> {
    (number == 0).then_some(Verdict { yes: yes == 1, kept: kept as u16, rounds: rounds as u16 })
}

/// The bytes of numbers; a processor that takes this library has the low byte first, as the calls have it.
fn bytes_of<T: Copy + Into<u64>>(numbers: &mut [T]) -> &mut [u8] {
    // Bytes of unsigned numbers, any of which are such numbers too.
    unsafe { numbers.align_to_mut().1 }
}

/// The engines with the memory that they work in.
pub struct Engines {
    fast: Box<Fast>,
    /// How long the plain engine may take for one call.
    pub patience: Duration,
}

impl Engines {
    pub fn new(patience: Duration) -> Engines {
        Engines { fast: Fast::new(), patience }
    }

    /// What an engine answers, and in `marks` the marks; nothing where the call is turned back, or the plain engine gives up.
    #[inline(never)]
    pub fn decide(&mut self, engine: Engine, asked: &Question, mode: usize, marks: &mut Marks) -> Option<Verdict> {
        match engine {
            Engine::This => call(asked, mode, marks),
            Engine::Before => call_before(asked, mode, marks),
            Engine::Plain => plain::decide(asked, mode, marks, Instant::now() + self.patience),
            Engine::Fast => self.fast.decide(asked, mode, marks),
        }
    }
}

/// How many pairs of states the question is about, where the tables are there.
pub fn pairs(asked: &Question) -> usize {
    let states = |table: usize| asked.file[3 + 6 * table] as usize;
    states(asked.demand) * states(asked.supply)
}
