//! A line of a case file, word by word. Commas count as spaces, and a brace is a
//! word of its own.

use crate::file::Row;

pub struct Words {
    words: Vec<String>,
    next: usize,
}

impl Words {
    pub fn of(line: &str) -> Words {
        let spaced = line.replace(',', " ").replace('{', " { ").replace('}', " } ");
        Words { words: spaced.split_whitespace().map(str::to_string).collect(), next: 0 }
    }

    pub fn at_end(&self) -> bool {
        self.next == self.words.len()
    }

    pub fn peek(&self) -> &str {
        self.words.get(self.next).map_or("", |word| word)
    }

    pub fn peek_second(&self) -> &str {
        self.words.get(self.next + 1).map_or("", |word| word)
    }

    pub fn take(&mut self) -> Result<String, String> {
        let word = self.words.get(self.next).ok_or("the line ends too early")?;
        self.next += 1;
        Ok(word.clone())
    }

    /// Takes this word, if it is the next.
    pub fn take_if(&mut self, wanted: &str) -> bool {
        let found = self.peek() == wanted;
        self.next += found as usize;
        found
    }

    pub fn take_this(&mut self, wanted: &str) -> Result<(), String> {
        if self.take_if(wanted) {
            return Ok(());
        }
        Err(format!("'{wanted}' is due before '{}'", self.peek()))
    }

    pub fn number(&mut self) -> Result<usize, String> {
        let word = self.take()?;
        word.parse().map_err(|_| format!("'{word}' is not a number"))
    }

    pub fn byte(&mut self) -> Result<u8, String> {
        let number = self.number()?;
        u8::try_from(number).map_err(|_| format!("{number} is no byte"))
    }

    pub fn short(&mut self) -> Result<u16, String> {
        let number = self.number()?;
        u16::try_from(number).map_err(|_| format!("{number} has more than 16 bits"))
    }

    pub fn hexadecimal(&mut self) -> Result<u8, String> {
        let word = self.take()?;
        u8::from_str_radix(&word, 16).map_err(|_| format!("'{word}' is no byte"))
    }

    /// A set of resources, as `{0, 2}`.
    fn set(&mut self) -> Result<u16, String> {
        self.take_this("{")?;
        let mut set = 0;
        while !self.take_if("}") {
            let resource = self.number()?;
            if resource > 15 {
                return Err(format!("{resource} is no resource"));
            }
            set |= 1 << resource;
        }
        Ok(set)
    }

    /// The set behind a word, as `{0, 2}`, or as a number where higher bits are to
    /// be there too; the empty set where the word is left out.
    pub fn set_behind(&mut self, word: &str) -> Result<usize, String> {
        if !self.take_if(word) {
            return Ok(0);
        }
        match self.peek() {
            "{" => Ok(self.set()? as usize),
            _ => self.number(),
        }
    }

    /// Rows up to the line's end: `1 to 0 {0}`, or `1 to 0 counting 512` for the
    /// sets 0, 1, .. 511, or `1 to 0 counting 18 by 256` for 0, 256, .. 4352, or
    /// `1 to 0 counting 3 from 8` for 8, 9, 10.
    pub fn rows(&mut self) -> Result<Vec<Row>, String> {
        let mut rows = Vec::new();
        while !self.at_end() {
            let from = self.byte()?;
            self.take_this("to")?;
            let target = self.byte()?;
            if self.take_if("counting") {
                let count = self.short()?;
                let first = if self.take_if("from") { self.short()? } else { 0 };
                let step = if self.take_if("by") { self.short()? } else { 1 };
                let row = |index| Row { from, set: first + index * step, target };
                rows.extend((0..count).map(row));
            } else {
                rows.push(Row { from, set: self.set()?, target });
            }
        }
        Ok(rows)
    }

    pub fn end(&self) -> Result<(), String> {
        if self.at_end() {
            return Ok(());
        }
        Err(format!("'{}' is not due here", self.peek()))
    }
}
