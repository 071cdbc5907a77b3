//! The file of tables, read by the paper's sections 'Tables', 'The file' and
//! the paragraph 'Open'.

use std::ops::Range;

/// `slots` reads at most this many bytes; one more than the longest file.
pub const LONGEST_READ: usize = 32_867;
const MOST_TABLES: usize = 16;
pub const MOST_STATES: usize = 64;
pub const MOST_ROWS: usize = 512;

#[derive(Clone, Copy, PartialEq, Eq)]
pub enum Kind {
    Demand,
    Supply,
}

/// A row. The fields stand in the order by which rows rise: from, then set,
/// then target.
#[derive(Clone, Copy, PartialEq, Eq, PartialOrd, Ord)]
pub struct Row {
    pub from: u8,
    pub set: u16,
    pub target: u8,
}

pub struct Table {
    pub kind: Kind,
    pub states: usize,
    pub rows: Vec<Row>,
    /// Where in the file the body stands.
    pub body: Range<usize>,
}

impl Table {
    /// All resources that a row names.
    pub fn resources(&self) -> u16 {
        self.rows.iter().fold(0, |all, row| all | row.set)
    }
}

/// A call turned back: its number and place.
#[derive(Clone, Copy)]
pub struct Refusal {
    pub number: u16,
    pub place: usize,
}

pub fn refuse<T>(number: u16, place: usize) -> Result<T, Refusal> {
    Err(Refusal { number, place })
}

/// One entry of the contents.
struct Entry {
    kind: Kind,
    states: usize,
    rows: usize,
    offset: usize,
}

/// Opens a file: all its tables, or the first fault.
pub fn open(file: &[u8]) -> Result<Vec<Table>, Refusal> {
    let count = read_count(file)?;
    let mut entries = Vec::new();
    let mut end = 2 + 6 * count;
    for index in 0..count {
        let entry = read_entry(file, 2 + 6 * index, end)?;
        end += 4 * entry.rows;
        entries.push(entry);
    }
    if file.len() != end {
        return refuse(7, file.len());
    }
    let mut tables = Vec::new();
    for entry in entries {
        tables.push(read_body(file, &entry)?);
    }
    Ok(tables)
}

/// The count of tables, with all the contents known to be there.
fn read_count(file: &[u8]) -> Result<usize, Refusal> {
    if file.len() < 2 {
        return refuse(1, file.len());
    }
    let count = two_bytes(file, 0);
    if count == 0 || count > MOST_TABLES {
        return refuse(2, 0);
    }
    if file.len() < 2 + 6 * count {
        return refuse(1, file.len());
    }
    Ok(count)
}

/// The entry at `place`; what precedes its body ends at `end`.
fn read_entry(file: &[u8], place: usize, end: usize) -> Result<Entry, Refusal> {
    let kind = match file[place] {
        1 => Kind::Demand,
        2 => Kind::Supply,
        _ => return refuse(3, place),
    };
    let states = file[place + 1] as usize;
    if states == 0 || states > MOST_STATES {
        return refuse(4, place + 1);
    }
    let rows = two_bytes(file, place + 2);
    if rows > MOST_ROWS {
        return refuse(5, place + 2);
    }
    let offset = two_bytes(file, place + 4);
    if offset != end {
        return refuse(6, place + 4);
    }
    Ok(Entry { kind, states, rows, offset })
}

fn read_body(file: &[u8], entry: &Entry) -> Result<Table, Refusal> {
    let mut rows: Vec<Row> = Vec::new();
    for index in 0..entry.rows {
        let place = entry.offset + 4 * index;
        let row = Row {
            from: file[place],
            target: file[place + 1],
            set: two_bytes(file, place + 2) as u16,
        };
        if row.from == 0 || row.from as usize >= entry.states {
            return refuse(8, place);
        }
        if row.target as usize >= entry.states {
            return refuse(9, place + 1);
        }
        if rows.last().is_some_and(|before| row <= *before) {
            return refuse(10, place);
        }
        rows.push(row);
    }
    let body = entry.offset..entry.offset + 4 * entry.rows;
    Ok(Table { kind: entry.kind, states: entry.states, rows, body })
}

/// The little-endian number in two bytes.
pub fn two_bytes(bytes: &[u8], place: usize) -> usize {
    bytes[place] as usize + 256 * bytes[place + 1] as usize
}
