//! A reader of the text format .aut, as far as change request L1 says what is
//! written in it. It shares nothing with what makes the text.

use crate::graph::{Edge, Graph};

/// Reads a text back, and holds what it says to the graph that it is to tell of.
pub fn read_back(text: &[u8], graph: &Graph) -> Result<(), String> {
    let read = read(text)?;
    if (read.start, read.count_of_pairs) != (graph.start, graph.count_of_pairs) {
        return Err(format!(
            "it reads as start {} of {} pairs, not start {} of {}",
            read.start, read.count_of_pairs, graph.start, graph.count_of_pairs
        ));
    }
    if read.edges.len() != graph.edges.len() {
        let (came, due) = (read.edges.len(), graph.edges.len());
        return Err(format!("it reads as {came} moves, not {due}"));
    }
    let mut both = read.edges.iter().zip(&graph.edges).enumerate();
    match both.find(|(_, (came, due))| came != due) {
        None => Ok(()),
        Some((index, (came, due))) => {
            let (came, due) = (came.line(), due.line());
            Err(format!("move {index} reads as {came}, not {due}"))
        }
    }
}

/// The graph that a text tells of: its first line, then as many lines as that
/// says, and nothing behind them.
fn read(text: &[u8]) -> Result<Graph, String> {
    let mut reader = Reader { text, place: 0, line: 1 };
    reader.take("des (")?;
    let start = reader.decimal()?;
    reader.take(", ")?;
    let count = reader.decimal()?;
    reader.take(", ")?;
    let count_of_pairs = reader.decimal()?;
    reader.take(")")?;
    if start >= count_of_pairs {
        return Err(reader.fault(&format!("there is no pair {start}")));
    }
    reader.end_line()?;
    let mut edges = Vec::new();
    for _ in 0..count {
        edges.push(reader.edge(count_of_pairs)?);
    }
    if reader.place < text.len() {
        return Err(reader.fault("the text goes on"));
    }
    Ok(Graph { start, count_of_pairs, edges })
}

struct Reader<'a> {
    text: &'a [u8],
    place: usize,
    /// The number of the line that is being read, from 1 on.
    line: usize,
}

impl Reader<'_> {
    fn fault(&self, reason: &str) -> String {
        format!("line {} at byte {} of the text: {reason}", self.line, self.place)
    }

    fn take(&mut self, wanted: &str) -> Result<(), String> {
        if !self.text[self.place..].starts_with(wanted.as_bytes()) {
            return Err(self.fault(&format!("{wanted:?} is due")));
        }
        self.place += wanted.len();
        Ok(())
    }

    fn end_line(&mut self) -> Result<(), String> {
        self.take("\n")?;
        self.line += 1;
        Ok(())
    }

    /// A decimal number without leading zeros.
    fn decimal(&mut self) -> Result<usize, String> {
        let rest = &self.text[self.place..];
        let count = rest.iter().take_while(|byte| byte.is_ascii_digit()).count();
        if count == 0 || count > 9 {
            return Err(self.fault("a number of one to nine digits is due"));
        }
        if count > 1 && rest[0] == b'0' {
            return Err(self.fault("a number has a leading zero"));
        }
        self.place += count;
        Ok(rest[..count].iter().fold(0, |number, byte| 10 * number + (byte - b'0') as usize))
    }

    /// The number of a pair.
    fn pair(&mut self, count_of_pairs: usize) -> Result<usize, String> {
        let number = self.decimal()?;
        if number >= count_of_pairs {
            return Err(self.fault(&format!("there is no pair {number}")));
        }
        Ok(number)
    }

    /// Four hexadecimal digits, capitals.
    fn set(&mut self) -> Result<u16, String> {
        let mut set = 0;
        for _ in 0..4 {
            let digit = match self.text.get(self.place) {
                Some(byte @ b'0'..=b'9') => byte - b'0',
                Some(byte @ b'A'..=b'F') => byte - b'A' + 10,
                _ => return Err(self.fault("a hexadecimal digit is due")),
            };
            set = 16 * set + digit as u16;
            self.place += 1;
        }
        Ok(set)
    }

    /// The line of a move.
    fn edge(&mut self, count_of_pairs: usize) -> Result<Edge, String> {
        self.take("(")?;
        let from = self.pair(count_of_pairs)?;
        self.take(", \"")?;
        let left = self.set()?;
        self.take(":")?;
        let consumed = self.set()?;
        self.take(":")?;
        let unmet = self.set()?;
        self.take("\", ")?;
        let target = self.pair(count_of_pairs)?;
        self.take(")")?;
        self.end_line()?;
        Ok(Edge { from, left, consumed, unmet, target })
    }
}
