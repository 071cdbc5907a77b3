//! Times: each round of measuring calls each engine in turn, a batch of calls where they are quick; the median of each counts.

use crate::engines::{engines, pairs, Engine, Engines, Marks, Verdict, MODES};
use crate::tables::Case;
use std::time::{Duration, Instant};

/// A batch takes about this long, and the rounds for two tables, in one mode, this long together.
pub const BATCH: Duration = Duration::from_micros(300);
pub const TABLE: Duration = Duration::from_millis(1500);
pub const MOST_ROUNDS: usize = 401;
pub const LEAST_ROUNDS: usize = 5;

/// An engine that takes longer for a call is left out of the larger tables of the series.
const SLOW: Duration = Duration::from_millis(150);

/// How long the plain engine may take for one call.
const PATIENCE: Duration = Duration::from_secs(2);

/// A table, measured in one mode.
pub struct Line {
    pub name: String,
    pub mode: usize,
    pub verdict: Verdict,
    /// The median of a call, in seconds, of each engine that was not left out.
    pub medians: Vec<(Engine, f64)>,
}

struct Timing {
    engine: Engine,
    batch: u32,
    times: Vec<f64>,
}

struct Bench {
    all: Engines,
    marks: Marks,
    /// Engines and modes that are left out of the rest of the series.
    slow: Vec<(Engine, usize)>,
}

impl Bench {
    fn time(&mut self, engine: Engine, case: &Case, mode: usize, calls: u32) -> (Duration, Option<Verdict>) {
        let start = Instant::now();
        let mut found = None;
        for _ in 0..calls {
            found = std::hint::black_box(self.all.decide(engine, &case.asked, mode, &mut self.marks));
        }
        (start.elapsed(), found)
    }

    /// The first calls of an engine, by which its batch is chosen, with what it answers.
    fn try_out(&mut self, engine: Engine, case: &Case, mode: usize) -> Option<(Timing, Verdict, Marks)> {
        if case.in_series && self.slow.contains(&(engine, mode)) {
            return None;
        }
        let (first, found) = self.time(engine, case, mode, 1);
        assert!(found.is_some() || engine == Engine::Plain, "{} gives no answer on {}", engine.name(), case.name);
        let verdict = found?;
        if case.in_series && SLOW < first {
            self.slow.push((engine, mode));
        }
        let once = if first < BATCH { self.time(engine, case, mode, 20).0 / 20 } else { first };
        let batch = (BATCH.as_secs_f64() / once.as_secs_f64()).clamp(1.0, 1000.0) as u32;
        Some((Timing { engine, batch, times: Vec::new() }, verdict, self.marks))
    }

    fn line(&mut self, case: &Case, mode: usize) -> Result<Line, String> {
        let tried: Vec<_> = engines().into_iter().filter_map(|engine| self.try_out(engine, case, mode)).collect();
        let (_, verdict, marks) = tried.first().ok_or("no engine answers")?;
        if tried.iter().any(|(_, found, other)| found != verdict || other[..pairs(&case.asked)] != marks[..pairs(&case.asked)]) {
            return Err(format!("the engines differ on {}", case.name));
        }
        let verdict = *verdict;
        let mut timings: Vec<Timing> = tried.into_iter().map(|(timing, ..)| timing).collect();
        let start = Instant::now();
        for round in 0..MOST_ROUNDS {
            if LEAST_ROUNDS <= round && TABLE < start.elapsed() {
                break;
            }
            for timing in &mut timings {
                // A quick engine is called once before its batch, so that what another one left in the caches does not count.
                self.time(timing.engine, case, mode, (timing.batch > 1) as u32);
                let (time, _) = self.time(timing.engine, case, mode, timing.batch);
                timing.times.push(time.as_secs_f64() / timing.batch as f64);
            }
        }
        let medians = timings.into_iter().map(|timing| (timing.engine, median(timing.times))).collect();
        Ok(Line { name: case.name.clone(), mode, verdict, medians })
    }
}

pub fn median(mut times: Vec<f64>) -> f64 {
    times.sort_by(f64::total_cmp);
    times[times.len() / 2]
}

/// Measures all tables in both modes.
pub fn measure(cases: &[Case], mut ready: impl FnMut(&Line)) -> Result<(), String> {
    let mut bench = Bench { all: Engines::new(PATIENCE), marks: [0; 4096], slow: Vec::new() };
    // The machine is brought up to speed first.
    bench.line(&cases[2], 0)?;
    for case in cases {
        for mode in MODES {
            ready(&bench.line(case, mode)?);
        }
    }
    Ok(())
}
