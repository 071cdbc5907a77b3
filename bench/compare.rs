//! Holds the engines equal: marks, the verdict for the start pair, the count kept and rounds.

use crate::drafts::draft_question;
use crate::engines::{engines, pairs, Engine, Engines, Marks, Question, Verdict, MODES};
use crate::random::Random;
use std::time::Duration;

/// What was compared, so that a reader sees that the files are not all of one kind.
#[derive(Default)]
pub struct Tally {
    pub files: usize,
    with_a_struck_pair: usize,
    that_differ_by_mode: usize,
    most_rounds: u16,
}

impl Tally {
    pub fn say(&self) {
        println!(
            "{} files: equal marks, verdicts, counts kept and rounds in both modes. {} have a struck pair, {} an answer that differs by mode; up to {} rounds.",
            self.files, self.with_a_struck_pair, self.that_differ_by_mode, self.most_rounds
        );
    }
}

fn answer(all: &mut Engines, engine: Engine, asked: &Question, mode: usize, marks: &mut Marks) -> Result<Verdict, String> {
    all.decide(engine, asked, mode, marks).ok_or(format!("{} gives no answer", engine.name()))
}

/// The verdict that all engines give.
fn same_answer(all: &mut Engines, asked: &Question, mode: usize) -> Result<Verdict, String> {
    // Entries after those of the pairs have to stay as they are.
    let mut due = [7; 4096];
    let verdict = answer(all, Engine::Plain, asked, mode, &mut due)?;
    for engine in engines() {
        let mut marks = [7; 4096];
        let found = answer(all, engine, asked, mode, &mut marks)?;
        let others = marks.iter().zip(due).filter(|(mark, due)| *mark != due).count();
        if found != verdict || others > 0 {
            let name = engine.name();
            return Err(format!("mode {mode}, {} pairs: {name} finds {found:?}, plain {verdict:?}; {others} marks differ", pairs(asked)));
        }
    }
    Ok(verdict)
}

/// Compares on `count` files, or says on which the engines differ.
pub fn compare(count: usize) -> Result<Tally, String> {
    let mut all = Engines::new(Duration::from_secs(3600));
    let mut random = Random::new(2026);
    let mut tally = Tally::default();
    for i in 0..count {
        let asked = draft_question(i, &mut random);
        let verdicts = MODES.map(|mode| same_answer(&mut all, &asked, mode));
        let [Ok(full), Ok(partial)] = verdicts else {
            let faults: Vec<String> = verdicts.into_iter().filter_map(Result::err).collect();
            return Err(format!("file {i}: {}: {:02X?}", faults.join("; "), asked.file));
        };
        tally.files += 1;
        tally.with_a_struck_pair += (full.rounds > 0) as usize;
        tally.that_differ_by_mode += (full != partial) as usize;
        tally.most_rounds = tally.most_rounds.max(full.rounds).max(partial.rounds);
    }
    Ok(tally)
}
