//! The answers that case files say are due.

use crate::answers::{body_form, byte_before, entry_before, first_line, push_line};
use crate::asked::Asked;
use crate::question::{Operation, Question};
use crate::words::Words;

/// The answer that is due.
#[derive(Default)]
pub struct Due {
    nothing: bool,
    number: u16,
    place: usize,
    values: Vec<usize>,
    first: Vec<u16>,
    second: Vec<u16>,
    /// Bytes of rows, of a text, or of numbers listed.
    pub bytes: Vec<u8>,
}

/// The first line of what is due.
pub fn due_of(mut words: Words) -> Result<Due, String> {
    let mut due = Due::default();
    match &words.take()?[..] {
        "nothing" => due.nothing = true,
        "refused" => {
            due.number = words.short()?;
            words.take_this("at")?;
            due.place = words.number()?;
        }
        "tables" | "moves" | "steps" | "triples" | "bytes" | "picked" => {
            due.values = vec![words.number()?];
        }
        "states" => {
            due.values = vec![words.number()?];
            words.take_this("rows")?;
            due.values.push(words.number()?);
        }
        "body" | "text" | "numbers" => {}
        yes @ ("yes" | "no") => {
            due.values = vec![(yes == "yes") as usize];
            let of_reach = words.peek() == "reached";
            let counts = if of_reach { &["reached"][..] } else { &["kept", "rounds"] };
            for word in counts {
                words.take_this(word)?;
                due.values.push(words.number()?);
            }
        }
        other => return Err(format!("'{other}' is no answer")),
    }
    words.end()?;
    Ok(due)
}

impl Due {
    /// A line with what a slice holds from its start on.
    pub fn add(&mut self, words: &mut Words) -> Result<(), String> {
        match &words.take()?[..] {
            "move" | "marks" | "entry" | "constants" => take_numbers(words, &mut self.first),
            "step" | "triple" | "row" => take_numbers(words, &mut self.second),
            "rows" => {
                self.bytes.extend(words.rows()?.iter().flat_map(body_form));
                Ok(())
            }
            "numbers" => {
                while !words.at_end() {
                    self.bytes.push(words.byte()?);
                }
                Ok(())
            }
            other => Err(format!("'{other}' is no part of an answer")),
        }
    }

    /// A line of text.
    pub fn add_text(&mut self, line: &str) -> Result<(), String> {
        self.bytes.extend(line.bytes());
        self.bytes.push(b'\n');
        Ok(())
    }

    /// All that the program has to write.
    pub fn text(&self, asked: &Asked) -> Result<String, String> {
        if self.nothing {
            return Ok(String::new());
        }
        let Some(question) = &asked.question else {
            return String::from_utf8(self.bytes.clone()).map_err(|error| error.to_string());
        };
        let mut text = first_line(self.number, self.place, &self.values);
        match question.operation {
            Operation::Open | Operation::Reach => {}
            Operation::Readers | Operation::Constants => return Ok(self.numbers(question)),
            Operation::Body => push_line(&mut text, &self.bytes),
            Operation::Moves | Operation::Decide | Operation::Run | Operation::Explain => {
                push_line(&mut text, &entries_due(&self.first, question.first_length)?);
                push_line(&mut text, &entries_due(&self.second, question.second_length)?);
            }
            Operation::Join
            | Operation::Merge
            | Operation::Report
            | Operation::Graph
            | Operation::Pick => {
                push_line(&mut text, &self.bytes_due(question.first_length)?);
            }
        }
        Ok(text)
    }

    /// What a question that is never turned back is answered with.
    fn numbers(&self, question: &Question) -> String {
        let mut text = String::new();
        push_line(&mut text, &self.first);
        if question.operation == Operation::Readers {
            push_line(&mut text, &self.second);
            push_line(&mut text, &self.bytes);
        }
        text
    }

    /// A slice of bytes: those that are written, and behind them what it held.
    fn bytes_due(&self, length: usize) -> Result<Vec<u8>, String> {
        if self.bytes.len() > length {
            return Err("the slice is shorter than what is due in it".to_string());
        }
        let rest = (self.bytes.len()..length).map(byte_before);
        Ok(self.bytes.iter().copied().chain(rest).collect())
    }
}

fn take_numbers(words: &mut Words, numbers: &mut Vec<u16>) -> Result<(), String> {
    while !words.at_end() {
        numbers.push(words.short()?);
    }
    Ok(())
}

/// A slice of 16-bit numbers: those that are written, and behind them what it held.
fn entries_due(written: &[u16], length: usize) -> Result<Vec<u16>, String> {
    if written.len() > length {
        return Err("the slice is shorter than what is due in it".to_string());
    }
    Ok(written.iter().copied().chain((written.len()..length).map(entry_before)).collect())
}
