//! Packing faults: lengths, table order, stray bytes, bits and kinds, absent fields.
use crate::rng::Rng;
use pack::corpus::Case;
use pack::layout::{numbers, TABLES};
use pack::row::Row;
use pack::RECORD;

/// Tables are numbered below it.
const KNOWN: u64 = TABLES.len() as u64;

/// One or two packing faults.
pub fn spoil(rng: &mut Rng, case: &mut Case) {
    for _ in 0..rng.between(1, 2) {
        match rng.below(12) {
            0 => length(rng, case),
            1..=3 => order(rng, case),
            4 if rng.chance(1, 2) => case.kind ^= 1,
            5 | 6 => absent(rng, case),
            _ => stray(rng, case),
        }
    }
}

/// Damages one to four bytes anywhere.
pub fn bytes(rng: &mut Rng, case: &mut Case) {
    for _ in 0..rng.between(1, 4) {
        let text = if rng.chance(1, 2) { &mut case.batch } else { &mut case.house };
        let bytes = if rng.chance(1, 12) && !text.is_empty() { text } else { &mut case.pack };
        let at = rng.place(bytes.len());
        bytes[at] = match rng.below(4) {
            0 => bytes[at] ^ 1 << rng.below(8),
            1 => rng.below(256) as u8,
            2 => bytes[at].wrapping_add(1),
            _ => rng.pick(&[0, 1, 2, 0x80, 0xff]),
        };
    }
}

fn length(rng: &mut Rng, case: &mut Case) {
    let old = case.pack.len();
    let new = match rng.below(5) {
        0 => 0,
        1 => old.saturating_sub(rng.between(1, 63) as usize),
        2 => old + rng.between(1, 63) as usize,
        3 => 63,
        _ => 65,
    };
    case.pack.resize(new, 0);
}

/// A record number; none in a pack shorter than a record.
fn some_record(rng: &mut Rng, case: &Case) -> Option<usize> {
    let records = case.pack.len() / RECORD;
    (records > 0).then(|| rng.place(records) * RECORD)
}

fn order(rng: &mut Rng, case: &mut Case) {
    let (Some(at), Some(other)) = (some_record(rng, case), some_record(rng, case)) else {
        return;
    };
    match rng.below(6) {
        0 => case.pack[at] = rng.between(KNOWN, 255) as u8,
        1 => case.pack[at] = KNOWN as u8,
        2 => case.pack[at] = rng.below(KNOWN) as u8,
        3 => drop(case.pack.drain(at..at + RECORD)),
        4 => {
            let record = case.pack[at..at + RECORD].to_vec();
            case.pack.splice(other..other, record);
        }
        _ => {
            let record = case.pack[at..at + RECORD].to_vec();
            case.pack.copy_within(other..other + RECORD, at);
            case.pack[other..other + RECORD].copy_from_slice(&record);
        }
    }
}

/// A stray bit, kind, byte 3 or byte after the fields.
fn stray(rng: &mut Rng, case: &mut Case) {
    let Some(at) = some_record(rng, case) else {
        return;
    };
    let record = &mut case.pack[at..at + RECORD];
    let Some(end) = fields_end(record[0]) else {
        return;
    };
    match rng.below(5) {
        0 => record[1] ^= 1 << rng.below(8),
        1 => record[2] = rng.pick(&[1, 2, 3, 4, 5, 8, 128, 255]),
        2 => record[3] = rng.between(1, 255) as u8,
        3 if end < RECORD => record[end] = rng.between(1, 255) as u8,
        _ if end < RECORD => record[rng.between(end as u64, 63) as usize] = 1,
        _ => record[2] = 1,
    }
}

fn fields_end(table: u8) -> Option<usize> {
    TABLES.get(table as usize)?;
    numbers(table).last().map(|number| number.at + number.bytes)
}

/// Makes one byte of an absent number something else than zero.
fn absent(rng: &mut Rng, case: &mut Case) {
    let mut all = Vec::new();
    for at in (0..case.pack.len() / RECORD).map(|record| record * RECORD) {
        let record = &case.pack[at..at + RECORD];
        if fields_end(record[0]).is_some() {
            let row = Row::read(record);
            let absent = (0..row.numbers.len()).filter(|number| !row.present(*number));
            all.extend(absent.map(|number| (at, numbers(row.table)[number])));
        }
    }
    if !all.is_empty() {
        let (at, number) = rng.pick(&all);
        case.pack[at + number.at + rng.place(number.bytes)] = rng.pick(&[1, 0x80, 0xff]);
    }
}
