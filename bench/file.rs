//! Tables, and a file of them as document 01 lays it out.

pub const DEMAND: u8 = 1;
pub const SUPPLY: u8 = 2;
pub const MOST_STATES: usize = 64;
pub const MOST_ROWS: usize = 512;

/// A row. The order of the fields is the order in which rows rise.
#[derive(Clone, Copy, PartialEq, Eq, PartialOrd, Ord)]
pub struct Row {
    pub from: u8,
    pub set: u16,
    pub target: u8,
}

pub fn row(from: usize, set: u16, target: usize) -> Row {
    Row { from: from as u8, set, target: target as u8 }
}

pub struct Table {
    pub kind: u8,
    pub states: usize,
    pub rows: Vec<Row>,
}

/// A table of these rows, in order and each once.
pub fn table(kind: u8, states: usize, mut rows: Vec<Row>) -> Table {
    rows.sort();
    rows.dedup();
    assert!(states <= MOST_STATES && rows.len() <= MOST_ROWS);
    Table { kind, states, rows }
}

/// The file of these tables.
pub fn file(tables: &[Table]) -> Vec<u8> {
    let mut bytes = (tables.len() as u16).to_le_bytes().to_vec();
    let mut offset = 2 + 6 * tables.len();
    for table in tables {
        bytes.extend([table.kind, table.states as u8]);
        bytes.extend((table.rows.len() as u16).to_le_bytes());
        bytes.extend((offset as u16).to_le_bytes());
        offset += 4 * table.rows.len();
    }
    for row in tables.iter().flat_map(|table| &table.rows) {
        bytes.extend([row.from, row.target]);
        bytes.extend(row.set.to_le_bytes());
    }
    bytes
}

/// A contents entry of a file.
pub struct Entry {
    pub states: usize,
    pub rows: usize,
    pub offset: usize,
}

/// The entry of a table, where the file has it, and of this kind.
pub fn entry(file: &[u8], table: usize, kind: u8) -> Option<Entry> {
    let bytes = file.get(2 + 6 * table..8 + 6 * table)?;
    let found = Entry {
        states: bytes[1] as usize,
        rows: u16::from_le_bytes([bytes[2], bytes[3]]) as usize,
        offset: u16::from_le_bytes([bytes[4], bytes[5]]) as usize,
    };
    let fits = bytes[0] == kind && (1..=MOST_STATES).contains(&found.states) && found.rows <= MOST_ROWS;
    fits.then_some(found)
}
