//! `check FILE [STANDING]`: decides the first demand table of a file of tables beside its first supply table, in both modes, and prints what `slots FILE`
//! prints: the two verdicts, and the run of a no. STANDING is a set of resources that every slot grants besides: the sum of 2 to the power r for each
//! resource r, 0 where it is left out. examples/README.md says how to build it, and include/slots.h what each call takes and reports.

use std::fmt;
use std::fs::File;
use std::io::{self, Read};
use std::process::ExitCode;

// As include/slots.h declares them.
extern "C" {
    fn slots_open(file: *const u8, file_length: usize, report: *mut u8, report_length: usize) -> u64;

    fn slots_decide(
        file: *const u8,
        file_length: usize,
        demand: u64,
        supply: u64,
        demand_state: u64,
        supply_state: u64,
        mode: u64,
        standing: u16,
        marks: *mut u8,
        marks_length: usize,
        report: *mut u8,
        report_length: usize,
    ) -> u64;

    fn slots_run(
        file: *const u8,
        file_length: usize,
        demand: u64,
        supply: u64,
        demand_state: u64,
        supply_state: u64,
        mode: u64,
        standing: u16,
        marks: *mut u8,
        marks_length: usize,
        steps: *mut u8,
        steps_length: usize,
        report: *mut u8,
        report_length: usize,
    ) -> u64;
}

// Of include/slots.h.
const OK: u64 = 0;
const WRONG_KIND: u64 = 12;
const IDLE_ROW: u16 = 65_535;
const NO_ROW: u16 = 65_534;
const REPORT: usize = 24;
const MOST_FILE: u64 = 32_866;

/// The kinds of tables.
const DEMAND: u8 = 1;
const SUPPLY: u8 = 2;

#[derive(Clone, Copy)]
enum Mode {
    Full = 0,
    Partial = 1,
}

/// A call that is turned back, by the number of a reason; the place is an offset in the file.
struct Refused {
    reason: u64,
    place: u64,
}

impl fmt::Display for Refused {
    fn fmt(&self, f: &mut fmt::Formatter) -> fmt::Result {
        write!(f, "refused {} at {}", self.reason, self.place)
    }
}

/// Two tables of a file, a state of each, and the standing set.
struct Question<'a> {
    file: &'a [u8],
    demand: u64,
    supply: u64,
    demand_state: u64,
    supply_state: u64,
    standing: u16,
}

struct Verdict {
    yes: bool,
    kept: u64,
    rounds: u64,
}

/// The three numbers of a report, or the refusal that it tells of.
fn reported(reason: u64, report: &[u8; REPORT]) -> Result<[u64; 3], Refused> {
    let mut numbers = [0; 3];
    for (number, bytes) in numbers.iter_mut().zip(report.chunks_exact(8)) {
        *number = bytes.iter().rev().fold(0, |high, low| high << 8 | u64::from(*low));
    }
    match reason {
        OK => Ok(numbers),
        _ => Err(Refused { reason, place: numbers[0] }),
    }
}

/// The count of a file's tables.
fn open(file: &[u8]) -> Result<u64, Refused> {
    let mut report = [0; REPORT];
    // SAFETY: each pointer and length are those of one slice, and the report, which is written, is borrowed by nobody else.
    let reason = unsafe { slots_open(file.as_ptr(), file.len(), report.as_mut_ptr(), report.len()) };
    let [k, _, _] = reported(reason, &report)?;
    Ok(k)
}

fn decide(question: &Question, mode: Mode, marks: &mut [u8]) -> Result<Verdict, Refused> {
    let Question { file, demand, supply, demand_state, supply_state, standing } = *question;
    let mut report = [0; REPORT];
    // SAFETY: each pointer and length are those of one slice. The marks and the report, which are written, are borrowed for writing, so they lie apart from
    // each other and from the file, and nobody else reads or writes them during the call.
    let reason = unsafe {
        slots_decide(
            file.as_ptr(),
            file.len(),
            demand,
            supply,
            demand_state,
            supply_state,
            mode as u64,
            standing,
            marks.as_mut_ptr(),
            marks.len(),
            report.as_mut_ptr(),
            report.len(),
        )
    };
    let [yes, kept, rounds] = reported(reason, &report)?;
    Ok(Verdict { yes: yes == 1, kept, rounds })
}

/// The count of the steps of the run that shows a no, 0 for a yes.
fn run(question: &Question, mode: Mode, marks: &mut [u8], steps: &mut [u8]) -> Result<u64, Refused> {
    let Question { file, demand, supply, demand_state, supply_state, standing } = *question;
    let mut report = [0; REPORT];
    // SAFETY: as in `decide`; the steps are written too, and are borrowed for writing.
    let reason = unsafe {
        slots_run(
            file.as_ptr(),
            file.len(),
            demand,
            supply,
            demand_state,
            supply_state,
            mode as u64,
            standing,
            marks.as_mut_ptr(),
            marks.len(),
            steps.as_mut_ptr(),
            steps.len(),
            report.as_mut_ptr(),
            report.len(),
        )
    };
    let [count, _, _] = reported(reason, &report)?;
    Ok(count)
}

/// The bytes of the contents of a file that was opened: 6 for each table, from byte 2 on, of which the first is the kind and the second n, the count of states.
fn contents_entry(file: &[u8], table: u64) -> &[u8] {
    &file[2 + 6 * table as usize..][..6]
}

fn first_table(file: &[u8], k: u64, kind: u8) -> Result<u64, Refused> {
    (0..k).find(|table| contents_entry(file, *table)[0] == kind).ok_or(Refused { reason: WRONG_KIND, place: 0 })
}

/// The state from which a table starts: 1, or 0 where there is no other.
fn start_state(file: &[u8], table: u64) -> u64 {
    u64::from(contents_entry(file, table)[1] > 1)
}

fn row_word(bytes: &[u8]) -> String {
    match u16::from_le_bytes([bytes[0], bytes[1]]) {
        IDLE_ROW => "idle".to_string(),
        NO_ROW => "none".to_string(),
        row => row.to_string(),
    }
}

/// Decides in one mode: the line of the verdict, and those of the steps of a no.
fn verdict_lines(question: &Question, mode: Mode) -> Result<String, Refused> {
    let states = |table| usize::from(contents_entry(question.file, table)[1]);
    let pairs = states(question.demand) * states(question.supply);
    let (mut marks, mut steps) = (vec![0; 2 * pairs], vec![0; 4 * pairs]);
    let verdict = decide(question, mode, &mut marks)?;
    let name = match mode {
        Mode::Full => "full",
        Mode::Partial => "partial",
    };
    let word = if verdict.yes { "yes" } else { "no" };
    let mut lines = format!("{name} {word} rounds {} kept {}\n", verdict.rounds, verdict.kept);
    if !verdict.yes {
        let count = run(question, mode, &mut marks, &mut steps)?;
        for step in steps.chunks_exact(4).take(count as usize) {
            lines += &format!("step {} {}\n", row_word(&step[..2]), row_word(&step[2..]));
        }
    }
    Ok(lines)
}

/// The text for a file.
fn check(file: &[u8], standing: u16) -> Result<String, Refused> {
    let k = open(file)?;
    let (demand, supply) = (first_table(file, k, DEMAND)?, first_table(file, k, SUPPLY)?);
    let (demand_state, supply_state) = (start_state(file, demand), start_state(file, supply));
    let question = Question { file, demand, supply, demand_state, supply_state, standing };
    let mut text = format!("slots {} bytes {k} tables\n", file.len());
    text += &format!("demand {demand} supply {supply} start {demand_state} {supply_state}\n");
    text += &verdict_lines(&question, Mode::Full)?;
    text += &verdict_lines(&question, Mode::Partial)?;
    Ok(text)
}

/// The bytes of a file, or one more than the longest file has, which is still too long.
fn read(path: &str) -> io::Result<Vec<u8>> {
    let mut bytes = Vec::new();
    File::open(path)?.take(MOST_FILE + 1).read_to_end(&mut bytes)?;
    Ok(bytes)
}

/// The file's path and the standing set, where the arguments are those.
fn arguments() -> Option<(String, u16)> {
    let mut words = std::env::args().skip(1);
    let path = words.next()?;
    let standing = words.next().map_or(Some(0), |word| word.parse().ok())?;
    words.next().is_none().then_some((path, standing))
}

fn main() -> ExitCode {
    let Some((path, standing)) = arguments() else {
        eprintln!("check FILE [STANDING], a number from 0 to {}", u16::MAX);
        return ExitCode::from(2);
    };
    match read(&path) {
        Ok(file) => match check(&file, standing) {
            Ok(text) => print!("{text}"),
            // An answer too, with the status of `slots`.
            Err(refused) => println!("{refused}"),
        },
        Err(error) => {
            eprintln!("{path}: {error}");
            return ExitCode::FAILURE;
        }
    }
    ExitCode::SUCCESS
}
