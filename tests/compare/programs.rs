//! Starts a program, feeds it an input and takes its output.

use std::io::{Read, Write};
use std::process::{ChildStdin, Command, Stdio};
use std::sync::mpsc::channel;
use std::thread;
use std::time::Duration;

/// A program that has not ended its output by then is stopped.
const LONGEST_WAIT: Duration = Duration::from_secs(60);
/// The pause between two pieces of an input: longer than a program takes to
/// start, so that its reads come short.
const PAUSE: Duration = Duration::from_millis(4);

/// What a program wrote, and what went wrong with it, if anything did.
pub struct Ended {
    pub output: Vec<u8>,
    pub fault: Option<String>,
}

fn failed(reason: String) -> Ended {
    Ended { output: Vec::new(), fault: Some(reason) }
}

/// Runs a program on an input that is written in so many pieces. Meanwhile
/// `work` is done, so that neither waits for the other.
pub fn run<T>(path: &str, input: &[u8], pieces: usize, work: impl FnOnce() -> T) -> (Ended, T) {
    let started = Command::new(path)
        .stdin(Stdio::piped())
        .stdout(Stdio::piped())
        .stderr(Stdio::null())
        .spawn();
    let mut child = match started {
        Ok(child) => child,
        Err(error) => return (failed(format!("could not be started: {error}")), work()),
    };
    let entrance = child.stdin.take().expect("standard input is a pipe");
    let mut exit = child.stdout.take().expect("standard output is a pipe");
    let (sender, receiver) = channel();
    thread::scope(|scope| {
        scope.spawn(move || feed(entrance, input, pieces));
        scope.spawn(move || {
            let mut output = Vec::new();
            let read = exit.read_to_end(&mut output);
            let _ = sender.send((output, read.err()));
        });
        let worked = work();
        let received = receiver.recv_timeout(LONGEST_WAIT);
        if received.is_err() {
            let _ = child.kill();
        }
        let status = child.wait();
        let ended = match (received, status) {
            (Err(_), _) => failed("did not end in a minute".to_string()),
            (_, Err(error)) => failed(format!("could not be waited for: {error}")),
            (Ok((output, Some(error))), _) => {
                Ended { output, fault: Some(format!("could not be read: {error}")) }
            }
            (Ok((output, None)), Ok(status)) if status.success() => Ended { output, fault: None },
            (Ok((output, None)), Ok(status)) => {
                Ended { output, fault: Some(format!("ended with {status}")) }
            }
        };
        (ended, worked)
    })
}

/// Writes the input in so many pieces. A broken pipe is no fault: a program may
/// stop reading early.
fn feed(mut entrance: ChildStdin, input: &[u8], pieces: usize) {
    let size = input.len().div_ceil(pieces).max(1);
    for (index, piece) in input.chunks(size).enumerate() {
        if index > 0 {
            thread::sleep(PAUSE);
        }
        if entrance.write_all(piece).and_then(|_| entrance.flush()).is_err() {
            return;
        }
    }
}

/// Many questions as one input of `calls_test`: the length of each in front of
/// it, in eight bytes.
pub fn questions(inputs: &[&[u8]]) -> Vec<u8> {
    let mut all = Vec::new();
    for input in inputs {
        all.extend((input.len() as u64).to_le_bytes());
        all.extend(*input);
    }
    all
}

/// The answers in an output of `calls_test`, each without the line with a point
/// that ends it; what stands behind the last such line is left out.
pub fn answers(output: &[u8]) -> Vec<&[u8]> {
    let mut all = Vec::new();
    let (mut start, mut line) = (0, 0);
    for (place, byte) in output.iter().enumerate() {
        if *byte == b'\n' {
            if &output[line..place] == b"." {
                all.push(&output[start..line]);
                start = place + 1;
            }
            line = place + 1;
        }
    }
    all
}

/// The bytes that a call wrote into a slice of bytes, by an answer of `calls_test`:
/// as many of its second line as the third number of its first line says.
pub fn written_bytes(answer: &[u8]) -> Result<Vec<u8>, String> {
    let text = String::from_utf8_lossy(answer);
    let mut lines = text.lines();
    let (first, second) = (lines.next().unwrap_or(""), lines.next().unwrap_or(""));
    let length = first.split(' ').nth(2).and_then(|word| word.parse::<usize>().ok());
    let length = length.ok_or("the first line has no length")?;
    let bytes: Result<Vec<u8>, _> = second.split(' ').take(length).map(str::parse).collect();
    match bytes {
        Ok(bytes) if bytes.len() == length => Ok(bytes),
        _ => Err(format!("the second line does not have {length} bytes")),
    }
}
