//! Deadlines (table 25), which the Rust does not have: their checks, from document 02, Wish 12.
use crate::numbers::from_1;
use pack::layout::{DEADLINES, REACTIONS};
use pack::names::FIELDS;
use pack::row::Row;

/// A station's deadlines, and how many reactions it has.
pub struct Deadlines {
    /// Reaction and nanoseconds.
    rows: Vec<[u64; 2]>,
    reactions: u64,
}

impl Deadlines {
    pub fn of(station: &[Row]) -> Self {
        let of = |table| station.iter().filter(move |row| row.table == table);
        let rows = of(DEADLINES).map(|row| [row.numbers[0], row.numbers[1]]).collect();
        Deadlines { rows, reactions: of(REACTIONS).count() as u64 }
    }

    pub fn count(&self) -> usize {
        self.rows.len()
    }

    /// The refusals of one row, in the order of its checks.
    pub fn faults(&self, index: usize) -> Vec<Vec<u64>> {
        let [reaction, nanoseconds] = self.rows[index];
        let before = index.checked_sub(1).map(|before| self.rows[before][0]);
        let row = [DEADLINES.into(), index as u64];
        let mut faults = Vec::new();
        if reaction >= self.reactions {
            let field = from_1(&FIELDS, "reaction");
            faults.push([&[12], &row[..], &[field, REACTIONS.into(), reaction, self.reactions]].concat());
        }
        if before.is_some_and(|before| reaction == before) {
            faults.push([&[16], &row[..]].concat());
        }
        if before.is_some_and(|before| reaction < before) {
            faults.push([&[15], &row[..]].concat());
        }
        if nanoseconds == 0 {
            faults.push(vec![39, index as u64]);
        }
        faults
    }

    /// The refusal of the first row at fault.
    pub fn refusal(&self) -> Option<Vec<u64>> {
        (0..self.count()).find_map(|index| self.faults(index).into_iter().next())
    }
}
