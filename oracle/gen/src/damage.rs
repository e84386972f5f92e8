//! Targeted damage: one to three changes to rows that still pass the packing rules.
use crate::rng::Rng;
use crate::texts::{name, utf8, Texts};
use pack::layout::{numbers, Number, Shape, ENCLAVE, FEDERATE, MODES, REACTORS, SCOPES, TABLES};
use pack::row::Row;

/// Scalars that make an identity invalid alone, in front or behind: White_Space and controls.
pub const FORBIDDEN: [u32; 32] = [
    0x00, 0x01, 0x09, 0x0a, 0x0b, 0x0c, 0x0d, 0x1f, 0x20, 0x7f, 0x80, 0x85, 0x9f, 0xa0, 0x1680, 0x2000,
    0x2001, 0x2002, 0x2003, 0x2004, 0x2005, 0x2006, 0x2007, 0x2008, 0x2009, 0x200a, 0x2028, 0x2029, 0x202f,
    0x205f, 0x3000, 0x1e,
];

/// Changes rows of any table, or of the one named. Half the time all changes meet one row.
pub fn damage(rng: &mut Rng, rows: &mut Vec<Row>, texts: &mut Texts, only: Option<u8>) {
    let Some(focus) = some_row(rng, rows, only) else {
        return;
    };
    let stay = rng.chance(1, 2);
    for _ in 0..rng.between(1, 3) {
        let at = if stay && focus < rows.len() { Some(focus) } else { some_row(rng, rows, only) };
        let Some(at) = at else {
            return;
        };
        match rng.below(24) {
            0..=2 => exchange(rng, rows, at),
            3 | 4 if rows[at].table > SCOPES => rows.insert(at, rows[at].clone()),
            5 => rows.insert(at, rows[at].clone()),
            6 if rows[at].table > ENCLAVE => drop(rows.remove(at)),
            7..=9 => change_bits(rng, rows, at),
            10 if rows[at].table == SCOPES => change_scope(rng, rows, at),
            _ => change_number(rng, rows, at, texts),
        }
    }
}

/// Spoils several fields of one row of tables 2 to 7, so that the order of its checks decides.
pub fn spoil_row(rng: &mut Rng, rows: &mut [Row], texts: &mut Texts) {
    let table = rng.between(REACTORS.into(), SCOPES.into()) as u8;
    let Some(at) = some_row(rng, rows, Some(table)) else {
        return;
    };
    for bit in 0..2 {
        if TABLES[table as usize].bits >> bit & 1 == 1 && rng.chance(1, 2) {
            rows[at].bits |= 1 << bit;
        }
    }
    rows[at].settle();
    let layout = numbers(table);
    let mut fields: Vec<usize> =
        (0..layout.len()).filter(|place| layout[*place].part == 0 && rows[at].present(*place)).collect();
    rng.shuffle(&mut fields);
    for place in fields.into_iter().take(rng.between(2, 4) as usize) {
        rows[at].numbers[place] = other_value(rng, rows, at, place, layout[place]);
    }
    if rng.chance(1, 4) {
        change_number(rng, rows, at, texts);
    }
}

/// A row of a table that is there, each table as likely as any other.
fn some_row(rng: &mut Rng, rows: &[Row], only: Option<u8>) -> Option<usize> {
    let mut tables: Vec<u8> = rows.iter().map(|row| row.table).collect();
    tables.dedup();
    tables.retain(|table| only.is_none_or(|only| only == *table));
    if tables.is_empty() {
        return None;
    }
    let table = rng.pick(&tables);
    let places: Vec<usize> = (0..rows.len()).filter(|at| rows[*at].table == table).collect();
    Some(rng.pick(&places))
}

/// Exchanges a row with the next of its table, or with another anywhere.
fn exchange(rng: &mut Rng, rows: &mut [Row], at: usize) {
    let same: Vec<usize> = (0..rows.len()).filter(|other| rows[*other].table == rows[at].table).collect();
    let next = same.iter().find(|other| **other > at && rng.chance(2, 3));
    let other = next.copied().unwrap_or_else(|| rng.pick(&same));
    rows.swap(at, other);
}

/// Turns a bit of byte 1 or another value of byte 2; numbers that appear are small.
pub fn change_bits(rng: &mut Rng, rows: &mut [Row], at: usize) {
    let row = &mut rows[at];
    let before: Vec<bool> = (0..row.numbers.len()).map(|number| row.present(number)).collect();
    if rng.chance(1, 2) {
        row.bits ^= 1 << rng.below(2);
    } else {
        row.second ^= rng.between(1, 3) as u8;
    }
    for (number, before) in before.iter().enumerate() {
        if !before && row.present(number) {
            row.numbers[number] = rng.below(4);
        }
    }
    row.settle();
}

/// Gives a scope a parent, a mode or both, mostly inside their tables.
fn change_scope(rng: &mut Rng, rows: &mut [Row], at: usize) {
    let scopes = table_length(rows, at, SCOPES);
    let modes = table_length(rows, at, MODES);
    let given = rng.between(1, 3) as u8;
    let row = &mut rows[at];
    row.bits |= given;
    if given & 1 != 0 {
        row.numbers[0] = rng.below(scopes + 1);
    }
    if given & 2 != 0 {
        row.numbers[2] = rng.below(modes + 2);
    }
}

pub fn change_number(rng: &mut Rng, rows: &mut [Row], at: usize, texts: &mut Texts) {
    let layout = numbers(rows[at].table);
    let mut places: Vec<usize> = (0..layout.len()).filter(|number| rows[at].present(*number)).collect();
    let is_key = |place: &usize| layout[*place].field.shape == Shape::W && layout[*place].field.to.is_some();
    if rng.chance(1, 3) && places.iter().any(is_key) {
        places.retain(is_key);
    }
    let which = rng.pick(&places);
    let number = layout[which];
    match number.field.shape {
        Shape::Identity(bit) => {
            let first = which - number.part as usize;
            change_identity(rng, rows, at, first, bit, texts);
        }
        _ => rows[at].numbers[which] = other_value(rng, rows, at, which, number),
    }
}

/// A value on an edge: of its width, of the table it points into, of its neighbours.
fn other_value(rng: &mut Rng, rows: &[Row], at: usize, which: usize, number: Number) -> u64 {
    let most = u64::MAX >> (64 - 8 * number.bytes);
    let old = rows[at].numbers[which];
    let length = number.field.to.map_or(2, |table| table_length(rows, at, table));
    let value = match rng.below(16) {
        0 => 0,
        1 | 2 => old.wrapping_add(1),
        3 | 4 => old.wrapping_sub(1),
        5 => length,
        6 => length.wrapping_sub(1),
        7 => length + 1,
        8 => most,
        9..=11 => rng.below(4),
        12 => rng.next(),
        13 => rng.pick(&[1 << 31, 1 << 32, (1 << 32) - 1, (1 << 32) + 1, 1 << 63, most - length]),
        _ => {
            let table = rows[at].table;
            let like: Vec<u64> =
                rows.iter().filter(|row| row.table == table).map(|row| row.numbers[which]).collect();
            rng.pick(&like)
        }
    };
    value & most
}

/// The rows of a table in the station of row `at`; for a federate, the stations.
fn table_length(rows: &[Row], at: usize, table: u8) -> u64 {
    if rows[at].table == FEDERATE {
        return rows.iter().filter(|row| row.table == ENCLAVE).count() as u64;
    }
    let start = (0..=at).rev().find(|before| rows[*before].table == ENCLAVE).unwrap_or(0);
    let station = rows[start + 1..].iter().take_while(|row| row.table != ENCLAVE);
    station.filter(|row| row.table == table).count() as u64
}

/// Gives an identity another place: one that stands already, an empty one, a good or a bad one.
fn change_identity(rng: &mut Rng, rows: &mut [Row], at: usize, first: usize, bit: u8, texts: &mut Texts) {
    let (house, start, length) = match rng.below(8) {
        0..=2 => {
            let like = rows.iter().filter(|row| row.table == rows[at].table);
            let known: Vec<_> = like
                .flat_map(|row| {
                    row.identities().map(|(at, house)| (house, row.numbers[at], row.numbers[at + 1]))
                })
                .collect();
            rng.pick(&known)
        }
        3 => (rng.below(2) as u8, 0, 0),
        4 | 5 => {
            let good = name(rng);
            texts.place(rng, &good)
        }
        6 => {
            let bad = bad_name(rng);
            texts.place(rng, &bad)
        }
        _ => {
            let row = &rows[at];
            let length = row.numbers[first + 1].wrapping_add(rng.pick(&[1, u64::MAX])) & 0xffff_ffff;
            (row.bits >> bit & 1, row.numbers[first], length)
        }
    };
    let row = &mut rows[at];
    row.bits = row.bits & !(1 << bit) | house << bit;
    row.numbers[first] = start;
    row.numbers[first + 1] = length;
    debug_assert!(row.bits & !TABLES[row.table as usize].bits == 0);
}

/// A name with a forbidden scalar in front, behind, inside or alone.
pub fn bad_name(rng: &mut Rng) -> Vec<u8> {
    let bad = utf8(rng.pick(&FORBIDDEN));
    let good = name(rng);
    match rng.below(4) {
        0 => bad,
        1 => [bad, good].concat(),
        2 => [good, bad].concat(),
        _ => [good.clone(), bad, good].concat(),
    }
}
