//! The case files: files of tables by name, questions about them, and the answers
//! that are due. Their form is described in tests/README.md.

use crate::answers::body_form;
use crate::asked::{asked, Asked};
use crate::cases::{Case, Program};
use crate::drafts::{file_of, Draft, DEMAND, SUPPLY};
use crate::due::{due_of, Due};
use crate::file::open;
use crate::graph::printed;
use crate::merge::merge;
use crate::rules::join;
use crate::words::Words;
use std::collections::HashMap;
use std::path::Path;

/// A case of a case file.
pub struct Written {
    /// Where it stands, and why.
    pub name: String,
    program: Program,
    input: Vec<u8>,
    /// What the program has to write.
    pub due: String,
}

impl Written {
    pub fn case(&self) -> Case {
        Case {
            kind: "case file",
            program: self.program,
            input: self.input.clone(),
            pieces: 1,
        }
    }
}

/// All cases of a folder's case files, in the order of their names, but for
/// `files.cases`, which is read first: its files are known to all others.
pub fn read_folder(folder: &Path) -> Result<Vec<Written>, String> {
    let shown = folder.display();
    let entries = std::fs::read_dir(folder).map_err(|error| format!("{shown}: {error}"))?;
    let mut paths: Vec<_> = entries.filter_map(|entry| Some(entry.ok()?.path())).collect();
    paths.retain(|path| path.extension().is_some_and(|ending| ending == "cases"));
    paths.sort_by_key(|path| (!path.ends_with("files.cases"), path.clone()));
    let mut all = Vec::new();
    let mut files = HashMap::new();
    for path in paths {
        let name = path.display().to_string();
        let text = std::fs::read_to_string(&path).map_err(|error| format!("{name}: {error}"))?;
        let (found, known) = CaseFile::new(name, files.clone()).read(&text)?;
        all.extend(found);
        if path.ends_with("files.cases") {
            files = known;
        }
    }
    if all.is_empty() {
        return Err(format!("{shown}: no case"));
    }
    Ok(all)
}

/// Files of tables by name.
type Files = HashMap<String, Vec<u8>>;

/// A file of tables that is being read.
enum Content {
    Bytes(Vec<u8>),
    /// Tables, and how often each stands there.
    Tables(Vec<(usize, Draft)>),
}

impl Content {
    fn bytes(self) -> Vec<u8> {
        match self {
            Content::Bytes(bytes) => bytes,
            Content::Tables(tables) => {
                let all: Vec<Draft> =
                    tables.into_iter().flat_map(|(count, table)| vec![table; count]).collect();
                file_of(&all)
            }
        }
    }
}

/// A case that is being read.
#[derive(Default)]
struct Open {
    why: String,
    asked: Vec<(usize, Asked)>,
    due: Option<Due>,
}

struct CaseFile {
    path: String,
    files: Files,
    naming: Option<(String, Content)>,
    open: Option<Open>,
    done: Vec<Written>,
}

impl CaseFile {
    fn new(path: String, files: Files) -> CaseFile {
        CaseFile { path, files, naming: None, open: None, done: Vec::new() }
    }

    /// The cases, and the files that are known behind them.
    fn read(mut self, text: &str) -> Result<(Vec<Written>, Files), String> {
        for (index, line) in text.lines().enumerate() {
            self.line(index + 1, line.trim())
                .map_err(|error| format!("{}:{}: {error}", self.path, index + 1))?;
        }
        let count = text.lines().count();
        self.close().map_err(|error| format!("{}:{count}: {error}", self.path))?;
        Ok((self.done, self.files))
    }

    fn line(&mut self, number: usize, line: &str) -> Result<(), String> {
        if let Some(rest) = line.strip_prefix('|') {
            let text = rest.strip_prefix(' ').unwrap_or(rest);
            return self.due()?.add_text(text);
        }
        if let Some(why) = line.strip_prefix("case ") {
            self.close()?;
            self.open = Some(Open { why: why.to_string(), ..Open::default() });
            return Ok(());
        }
        let line = line.split('#').next().unwrap_or("").trim();
        if line.is_empty() {
            return Ok(());
        }
        let mut words = Words::of(line);
        match words.peek() {
            "file" => self.name_file(words),
            "ask" => self.ask(number, line.strip_prefix("ask").unwrap_or("")),
            "due" => self.start_due(words),
            "joined" | "merged" if self.open.is_some() => self.add_joined(words),
            "graph" if self.open.is_some() => self.add_graph(words),
            _ if self.open.is_some() => self.due()?.add(&mut words),
            _ => self.add_content(words),
        }
    }

    fn due(&mut self) -> Result<&mut Due, String> {
        let open = self.open.as_mut().ok_or("no case is open")?;
        open.due.as_mut().ok_or("no answer is due yet".to_string())
    }

    fn name_file(&mut self, mut words: Words) -> Result<(), String> {
        self.close()?;
        words.take_this("file")?;
        let name = words.take()?;
        words.end()?;
        if self.files.contains_key(&name) {
            return Err(format!("a file {name} is there already"));
        }
        self.naming = Some((name, Content::Tables(Vec::new())));
        Ok(())
    }

    /// A line of a file: bytes, a table, tables, or rows of the last table.
    fn add_content(&mut self, mut words: Words) -> Result<(), String> {
        if ["joined", "merged"].contains(&words.peek()) {
            let joined = self.joined(&mut words)?;
            words.end()?;
            return self.add_table(1, joined);
        }
        if words.take_if("bytes") {
            return self.add_bytes(words);
        }
        if ["demand", "supply"].contains(&words.peek()) {
            let table = table_of(&mut words)?;
            return self.add_table(1, table);
        }
        if words.peek_second() == "times" {
            let count = words.number()?;
            words.take_this("times")?;
            let table = table_of(&mut words)?;
            return self.add_table(count, table);
        }
        let rows = words.rows()?;
        let (_, content) = self.naming.as_mut().ok_or("no file is open")?;
        match content {
            Content::Tables(tables) => {
                let (_, last) = tables.last_mut().ok_or("no table is open")?;
                last.rows.extend(rows);
                Ok(())
            }
            Content::Bytes(_) => Err("a file by its bytes has no rows".to_string()),
        }
    }

    fn add_bytes(&mut self, mut words: Words) -> Result<(), String> {
        let (_, content) = self.naming.as_mut().ok_or("no file is open")?;
        if let Content::Tables(tables) = content {
            if !tables.is_empty() {
                return Err("a file by its tables has no bytes".to_string());
            }
            *content = Content::Bytes(Vec::new());
        }
        while !words.at_end() {
            let byte = words.hexadecimal()?;
            if let Content::Bytes(bytes) = content {
                bytes.push(byte);
            }
        }
        Ok(())
    }

    fn add_table(&mut self, count: usize, table: Draft) -> Result<(), String> {
        let (_, content) = self.naming.as_mut().ok_or("no file is open")?;
        let Content::Tables(tables) = content else {
            return Err("a file by its bytes has no tables".to_string());
        };
        tables.push((count, table));
        Ok(())
    }

    /// `joined FILE TABLE TABLE [common SET]`: the table that Join makes of two tables of
    /// a file; `merged FILE TABLE TABLE`: the one that Merge makes.
    fn joined(&self, words: &mut Words) -> Result<Draft, String> {
        let is_joined = words.take()? == "joined";
        let name = words.take()?;
        let (first, second) = (words.number()?, words.number()?);
        let common = if is_joined { words.set_behind("common")? as u16 } else { 0 };
        let file = self.files.get(&name).ok_or(format!("no file {name}"))?;
        let tables = open(file).map_err(|_| format!("{name} does not open"))?;
        let (Some(first), Some(second)) = (tables.get(first), tables.get(second)) else {
            return Err(format!("{name} has not so many tables"));
        };
        let states = first.states * second.states;
        Ok(match is_joined {
            true => Draft { kind: DEMAND, states, rows: join(first, second, common) },
            false => Draft { kind: SUPPLY, states, rows: merge(first, second) },
        })
    }

    /// `joined FILE TABLE TABLE [common SET] digest NUMBER` in an answer, or `merged`: the
    /// rows that Join or Merge makes of two tables, which must have this digest.
    fn add_joined(&mut self, mut words: Words) -> Result<(), String> {
        let rows = self.joined(&mut words)?.rows;
        words.take_this("digest")?;
        let digest = words.number()?;
        words.end()?;
        let bytes: Vec<u8> = rows.iter().flat_map(body_form).collect();
        if digest_of(&bytes) != digest {
            return Err(format!("the digest of these rows is {}", digest_of(&bytes)));
        }
        self.due()?.bytes.extend(bytes);
        Ok(())
    }

    /// `graph FILE digest NUMBER` in an answer: the text that `aut` prints for a
    /// file, which must have this digest.
    fn add_graph(&mut self, mut words: Words) -> Result<(), String> {
        words.take_this("graph")?;
        let name = words.take()?;
        words.take_this("digest")?;
        let digest = words.number()?;
        words.end()?;
        let file = self.files.get(&name).ok_or(format!("no file {name}"))?;
        let bytes = printed(file).text.into_bytes();
        if digest_of(&bytes) != digest {
            let length = bytes.len();
            return Err(format!("the digest of these {length} bytes is {}", digest_of(&bytes)));
        }
        self.due()?.bytes.extend(bytes);
        Ok(())
    }

    /// `ask FILE CHANGES: QUESTION`.
    fn ask(&mut self, number: usize, line: &str) -> Result<(), String> {
        let (file, question) = line.split_once(':').ok_or("a colon is due behind the file")?;
        let file = self.changed_file(Words::of(file))?;
        let asked = asked(file, Words::of(question))?;
        let open = self.open.as_mut().ok_or("no case is open")?;
        if open.due.is_some() {
            return Err("the answer stands before this question".to_string());
        }
        open.asked.push((number, asked));
        Ok(())
    }

    /// A file by its name, and the changes made to it, one after the other.
    fn changed_file(&mut self, mut words: Words) -> Result<Vec<u8>, String> {
        let name = words.take()?;
        let mut file = self.files.get(&name).ok_or(format!("no file {name}"))?.clone();
        while !words.at_end() {
            match &words.take()?[..] {
                "cut" => file.truncate(words.number()?),
                "drop" => {
                    let count = words.number()?.min(file.len());
                    file.drain(..count);
                }
                "add" => file.push(words.byte()?),
                "byte" => {
                    let place = words.number()?;
                    let byte = file.get_mut(place).ok_or(format!("no byte {place}"))?;
                    *byte = words.byte()?;
                }
                other => return Err(format!("'{other}' is no change of a file")),
            }
        }
        Ok(file)
    }

    fn start_due(&mut self, mut words: Words) -> Result<(), String> {
        words.take_this("due")?;
        let open = self.open.as_mut().ok_or("no case is open")?;
        if open.due.is_some() || open.asked.is_empty() {
            return Err("one answer is due, behind the questions".to_string());
        }
        open.due = Some(due_of(words)?);
        Ok(())
    }

    /// Ends the file or the case that is open.
    fn close(&mut self) -> Result<(), String> {
        if let Some((name, content)) = self.naming.take() {
            self.files.insert(name, content.bytes());
        }
        let Some(open) = self.open.take() else {
            return Ok(());
        };
        let due = open.due.ok_or("the case before this line has no answer")?;
        for (number, asked) in open.asked {
            let text = due.text(&asked).map_err(|error| format!("question {number}: {error}"))?;
            let name = format!("{}:{number}: {}", self.path, open.why);
            let Asked { program, input, .. } = asked;
            self.done.push(Written { name, program, input, due: text });
        }
        Ok(())
    }
}

/// `demand N` or `supply N`, without rows.
fn table_of(words: &mut Words) -> Result<Draft, String> {
    let kind = match &words.take()?[..] {
        "demand" => DEMAND,
        "supply" => SUPPLY,
        other => return Err(format!("'{other}' is no kind of table")),
    };
    let states = words.byte()? as usize;
    words.end()?;
    Ok(Draft { kind, states, rows: Vec::new() })
}

/// A number that another order or another byte would change.
fn digest_of(bytes: &[u8]) -> usize {
    bytes.iter().fold(0, |sum, byte| (sum * 31 + *byte as usize) % 65_521)
}
