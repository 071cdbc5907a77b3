//! Pick, by change request L6: the supplies of a file that fit a demand.

use crate::file::{Kind, Table};
use crate::report::start_of;
use crate::rules::{marks, Mode, Pair, Tables};

/// Whether the demand gets a yes beside the supply, each of them from state 1, or
/// from FIN where there is no other.
pub fn fits(tables: Tables, mode: Mode) -> bool {
    let start = Pair { demand: start_of(tables.demand), supply: start_of(tables.supply) };
    marks(tables, mode)[tables.entry(start)] == 0
}

/// The numbers of the supplies among these tables that fit a demand, rising.
pub fn picked(all: &[Table], demand: &Table, mode: Mode, standing: u16) -> Vec<u8> {
    let mut numbers = Vec::new();
    for (number, supply) in all.iter().enumerate() {
        if supply.kind == Kind::Supply && fits(Tables { demand, supply, standing }, mode) {
            numbers.push(number as u8);
        }
    }
    numbers
}
