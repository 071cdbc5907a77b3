//! Files at the limits and one past them, and files with faults.

use crate::drafts::{
    cycles_or_chain, draft, file_of, largest_tables, odd_tables, random_style, random_table,
    random_tables, table_with_rows, Draft, DEMAND, SUPPLY,
};
use crate::file::two_bytes;
use crate::random::Random;

/// How many files `limit_file` makes.
pub const LIMITS: usize = 24;
/// How many faults `add_fault` makes.
pub const FAULTS: usize = 13;

/// Small tables, each with two rows or more, so that every fault has a place.
fn steady_tables(random: &mut Random, count: usize) -> Vec<Draft> {
    let style = random_style(random);
    let mut tables = Vec::new();
    for index in 0..count {
        let states = random.between(3, 10);
        let kind = [DEMAND, SUPPLY][index % 2];
        let mut rows = random_table(random, kind, states, style).rows;
        let more = draft(kind, states, &[(1, 0, 65_535), (states - 1, 1, 65_535)]).rows;
        rows.extend(more);
        rows.sort();
        rows.dedup();
        tables.push(Draft { kind, states, rows });
    }
    tables
}

/// A file at a limit or one past it; `which` counts below `LIMITS`.
pub fn limit_file(random: &mut Random, which: usize) -> Vec<u8> {
    let supply = draft(SUPPLY, 2, &[(1, 1, 65_535)]);
    let beside = |demand: Draft| file_of(&[demand, supply.clone()]);
    match which {
        0 => file_of(&steady_tables(random, 16)),
        1 => file_of(&steady_tables(random, 17)),
        2 => vec![0, 0],
        3 => beside(draft(DEMAND, 64, &[(1, 63, 1), (63, 63, 65_535)])),
        4 => beside(draft(DEMAND, 65, &[(1, 64, 1), (64, 64, 65_535)])),
        5 => beside(draft(DEMAND, 0, &[])),
        6 => beside(table_with_rows(random, DEMAND, 64, 512)),
        7 => beside(table_with_rows(random, DEMAND, 64, 513)),
        8 => file_of(&largest_tables(random)),
        9 => [file_of(&largest_tables(random)), vec![0]].concat(),
        10 => all_but_last(file_of(&largest_tables(random))),
        11 => beside(draft(DEMAND, 1, &[])),
        12 => file_of(&vec![draft(DEMAND, 1, &[]); 16]),
        13 => [vec![17, 0], vec![1; 102]].concat(),
        14 => [vec![0, 1], vec![1; 102]].concat(),
        15 => beside(draft(DEMAND, 5, &[(0, 1, 1), (1, 1, 1)])),
        16 => beside(draft(DEMAND, 5, &[(1, 1, 1), (5, 1, 1)])),
        17 => beside(draft(DEMAND, 5, &[(1, 4, 1), (1, 5, 1)])),
        18 => file_of(&[table_with_rows(random, DEMAND, 3, 512), supply]),
        _ => beside(rows_in_order(which)),
    }
}

fn all_but_last(mut file: Vec<u8>) -> Vec<u8> {
    file.pop();
    file
}

/// Two rows from state 1, in the right or a wrong order.
fn rows_in_order(which: usize) -> Draft {
    let low = draft(DEMAND, 6, &[(1, 5, 1)]).rows[0];
    let high = draft(DEMAND, 6, &[(1, 2, 2)]).rows[0];
    let same_set = draft(DEMAND, 6, &[(1, 2, 1)]).rows[0];
    let high_byte = draft(DEMAND, 6, &[(1, 0, 256)]).rows[0];
    let rows = match which {
        19 => vec![low, high],
        20 => vec![high, low],
        21 => vec![low, same_set],
        22 => vec![low, low],
        _ => vec![high, high_byte],
    };
    Draft { kind: DEMAND, states: 6, rows }
}

/// A file with one to three faults, the first of them chosen by the caller.
pub fn faulty_file(random: &mut Random, first_fault: usize, alone: bool) -> Vec<u8> {
    let count = random.between(1, 5);
    let tables = steady_tables(random, count);
    let mut faults = vec![first_fault];
    if !alone {
        let more = random.between(0, 2);
        faults.extend((0..more).map(|_| random.below(FAULTS)));
    }
    let mut file = file_of(&tables);
    for fault in faults {
        add_fault(random, &mut file, &tables, fault);
    }
    file
}

/// Puts one fault into the file of these tables.
fn add_fault(random: &mut Random, file: &mut Vec<u8>, tables: &[Draft], fault: usize) {
    let entry = 2 + 6 * random.below(tables.len());
    match fault {
        0 => file.truncate(random.below(2)),
        1 => {
            let count = random.pick(&[0, 17, 256, 257, 65_535]);
            put_two(file, 0, count);
        }
        2 => file.truncate(random.between(2, 1 + 6 * tables.len())),
        3 => put(file, entry, random.pick(&[0, 3, 255])),
        4 => put(file, entry + 1, random.pick(&[0, 65, 128, 255])),
        5 => put_two(file, entry + 2, random.pick(&[513, 514, 1024, 65_535])),
        6 => {
            let offset = shown(file, entry + 4);
            let (more, less) = (offset.wrapping_add(1), offset.wrapping_sub(1));
            let wrong = [more, less, offset.wrapping_add(4), 0, 65_535];
            put_two(file, entry + 4, random.pick(&wrong));
        }
        7 => change_length(random, file, 4),
        8..=11 => add_row_fault(random, file, tables, fault),
        _ => {
            let rows = shown(file, entry + 2);
            put_two(file, entry + 2, random.pick(&[rows.wrapping_add(1), rows.wrapping_sub(1)]));
        }
    }
}

/// Puts a fault into one row, which is not the first of its body.
fn add_row_fault(random: &mut Random, file: &mut [u8], tables: &[Draft], fault: usize) {
    let number = random.below(tables.len());
    let rows_before: usize = tables[..number].iter().map(|table| table.rows.len()).sum();
    let table = &tables[number];
    let index = random.between(1, table.rows.len() - 1);
    let place = 2 + 6 * tables.len() + 4 * (rows_before + index);
    if place + 4 > file.len() {
        return;
    }
    match fault {
        8 => file[place] = random.pick(&[0, table.states as u8, table.states as u8 + 1, 255]),
        9 => file[place + 1] = random.pick(&[table.states as u8, table.states as u8 + 1, 255]),
        10 => file.copy_within(place - 4..place, place),
        _ => {
            for byte in place..place + 4 {
                file.swap(byte, byte - 4);
            }
        }
    }
}

/// How many files `two_faults` makes.
pub const TWO_FAULTS: usize = 18;

/// A file with two faults whose order decides the answer; `which` counts below
/// `TWO_FAULTS`.
pub fn two_faults(random: &mut Random, which: usize) -> Vec<u8> {
    let tables = steady_tables(random, 3);
    let mut file = file_of(&tables);
    let body = 2 + 6 * tables.len();
    let earlier_entry = 2 + 6 * random.below(2);
    let later_entry = earlier_entry + 6;
    match which {
        // Two fields of one entry, and one field each of two entries.
        0 => spoil(&mut file, &[(earlier_entry, 0), (earlier_entry + 1, 0)]),
        1 => spoil(&mut file, &[(earlier_entry + 1, 65), (earlier_entry + 3, 3)]),
        2 => spoil(&mut file, &[(earlier_entry + 3, 3), (earlier_entry + 5, 9)]),
        3 => spoil(&mut file, &[(earlier_entry + 1, 0), (later_entry, 3)]),
        4 => spoil(&mut file, &[(earlier_entry + 3, 3), (later_entry + 1, 0)]),
        5 => spoil(&mut file, &[(earlier_entry + 5, 9), (later_entry, 0)]),
        6 => spoil(&mut file, &[(earlier_entry + 5, 9), (later_entry + 3, 3)]),
        // Fields of one row: from, target and the order of rows.
        7 => spoil(&mut file, &[(body + 4, 0), (body + 5, 255)]),
        8 => spoil(&mut file, &[(body + 4, 200), (body + 5, 255)]),
        9 => spoil(&mut file, &[(body + 5, 255), (body, 2), (body + 4, 1)]),
        10 => spoil(&mut file, &[(body, 2), (body + 4, 0)]),
        // One field each of two rows.
        11 => spoil(&mut file, &[(body + 1, 255), (body + 4, 0)]),
        12 => spoil(&mut file, &[(body, 2), (body + 4, 1), (body + 9, 255)]),
        13 => spoil(&mut file, &[(body + 1, 255), (body + 4, 255), (later_entry, 3)]),
        // A count, an offset or a row beside a wrong length.
        14 => file.truncate(body - 1),
        15 => file[later_entry + 4] ^= 1,
        16 => file[body] = 0,
        _ => spoil(&mut file, &[(0, 17)]),
    }
    if which >= 14 {
        change_length(random, &mut file, 4);
    }
    file
}

fn spoil(file: &mut [u8], places_and_values: &[(usize, u8)]) {
    for (place, value) in places_and_values {
        put(file, *place, *value);
    }
}

/// Takes away or adds a few bytes at the end.
fn change_length(random: &mut Random, file: &mut Vec<u8>, most: usize) {
    let bytes = random.between(1, most);
    if random.chance(1, 2) {
        file.truncate(file.len().saturating_sub(bytes));
    } else {
        file.extend(random.bytes(bytes));
    }
}

fn put(file: &mut [u8], place: usize, value: u8) {
    if place < file.len() {
        file[place] = value;
    }
}

fn put_two(file: &mut [u8], place: usize, value: u16) {
    let bytes = value.to_le_bytes();
    put(file, place, bytes[0]);
    put(file, place + 1, bytes[1]);
}

/// The number at a place, or 0 where the file has been cut before it.
fn shown(file: &[u8], place: usize) -> u16 {
    if place + 2 > file.len() {
        return 0;
    }
    two_bytes(file, place) as u16
}

/// A well-formed file of any sort.
pub fn sound_file(random: &mut Random) -> Vec<u8> {
    let tables = match random.below(8) {
        0 => odd_tables(random),
        1 => {
            let turn = random.between(1, 3);
            cycles_or_chain(random, turn)
        }
        2 => {
            let count = random.between(1, 16);
            steady_tables(random, count)
        }
        _ => random_tables(random),
    };
    file_of(&tables)
}

/// A sound file with one to three bytes changed, cut short, or lengthened.
pub fn damaged_file(random: &mut Random) -> Vec<u8> {
    let mut file = sound_file(random);
    match random.below(4) {
        0 => file.truncate(random.below(file.len())),
        1 => change_length(random, &mut file, 40),
        _ => {
            let near_start = random.chance(1, 2);
            let reach = if near_start { file.len().min(60) } else { file.len() };
            for _ in 0..random.between(1, 3) {
                let place = random.below(reach);
                file[place] = match random.below(4) {
                    0 => random.next() as u8,
                    1 => file[place].wrapping_add(1),
                    2 => file[place].wrapping_sub(1),
                    _ => file[place] ^ (1 << random.below(8)),
                };
            }
        }
    }
    file
}

/// Random bytes. In three quarters of the cases k is 1 to 4, and in half of them
/// the first entry is one that a file with that k may have.
pub fn noise(random: &mut Random) -> Vec<u8> {
    let length = random.pick(&[0, 1, 2, 3, 7, 8, 14, 20, 60, 200]);
    let mut file = random.bytes(length);
    if random.chance(3, 4) {
        put_two(&mut file, 0, random.between(1, 4) as u16);
    }
    if random.chance(1, 2) {
        put(&mut file, 2, random.pick(&[1, 2]));
        put(&mut file, 3, random.between(1, 64) as u8);
        put_two(&mut file, 4, random.below(4) as u16);
        let count = shown(&file, 0);
        put_two(&mut file, 6, count.wrapping_mul(6).wrapping_add(2));
    }
    file
}
