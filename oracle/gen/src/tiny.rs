//! Tiny packs whose numbers come from {0, 1, 2, 3, FFFFFFFF}.
use crate::rng::Rng;
use crate::texts::Texts;
use pack::corpus::Kind;
use pack::layout::{numbers, Shape, BINDINGS, ENCLAVE, FEDERATE, REACTORS, SCOPES};
use pack::row::Row;

pub fn tiny(rng: &mut Rng, kind: Kind) -> (Vec<Row>, Texts) {
    let batch: &[u8] = rng.pick(&[b"ab", b"aba", b"abcd", b"a b"]);
    let house: &[u8] = rng.pick(&[b"", b"b", b"ca"]);
    let texts = Texts { batch: batch.to_vec(), house: house.to_vec() };
    let mut rows = Vec::new();
    let mut stations = 1;
    if kind == Kind::Federate {
        stations = rng.below(3);
        rows.push(row(rng, FEDERATE, &[], &texts));
        if rng.chance(4, 5) {
            rows[0].numbers[6..].copy_from_slice(&[0, stations]);
        }
    }
    for _ in 0..stations {
        station(rng, &mut rows, &texts);
    }
    (rows, texts)
}

fn station(rng: &mut Rng, rows: &mut Vec<Row>, texts: &Texts) {
    let mut lengths = [0; BINDINGS as usize + 1];
    for length in &mut lengths[2..] {
        *length = if rng.chance(1, 3) { rng.between(1, 2) } else { 0 };
    }
    for table in [REACTORS, SCOPES, BINDINGS] {
        lengths[table as usize] = rng.pick(&[1, 1, 1, 2, 2, 3]);
    }
    if rng.chance(1, 16) {
        lengths[REACTORS as usize] = 0;
    }
    rows.push(row(rng, ENCLAVE, &lengths, texts));
    for table in REACTORS..=BINDINGS {
        for _ in 0..lengths[table as usize] {
            rows.push(row(rng, table, &lengths, texts));
        }
    }
}

/// A row whose numbers are mostly inside the tables they point into.
fn row(rng: &mut Rng, table: u8, lengths: &[u64], texts: &Texts) -> Row {
    let sane = rng.chance(3, 4);
    let mut row = Row::new(table, &vec![0; numbers(table).len()]);
    row.bits = if sane && rng.chance(2, 3) { 0 } else { rng.below(8) as u8 };
    row.second = if table == BINDINGS && rng.chance(1, 2) { 0 } else { rng.below(4) as u8 };
    for (at, number) in numbers(table).iter().enumerate() {
        let inside = number.field.to.and_then(|to| lengths.get(to as usize)).copied();
        row.numbers[at] = match (number.field.shape, inside) {
            (Shape::Identity(bit), _) if rng.chance(19, 20) => {
                let text = if row.bits >> bit & 1 == 1 { &texts.house } else { &texts.batch };
                let rest = (text.len() as u64).saturating_sub(if number.part == 0 {
                    1
                } else {
                    row.numbers[at - 1]
                });
                rng.between(rest.min(number.part.into()), rest)
            }
            (Shape::W, Some(length)) if sane && length > 0 => rng.below(length),
            (Shape::Range | Shape::Span, Some(length)) if sane => rng.below(length.min(1) + 1),
            _ => value(rng, number.bytes),
        };
    }
    row.settle();
    row
}

fn value(rng: &mut Rng, bytes: usize) -> u64 {
    match rng.below(16) {
        0..=6 => 0,
        7..=11 => 1,
        12 => 2,
        13 | 14 => 3,
        _ if bytes == 8 && rng.chance(1, 2) => u64::MAX,
        _ => 0xffff_ffff,
    }
}
