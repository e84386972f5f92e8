//! Records of lines that are changed or tried first (document 02, Wish 7).
use crate::damage::{change_bits, change_number, damage};
use crate::line::{grown, Extent};
use crate::plan::SMALL;
use crate::rng::Rng;
use crate::texts::Texts;
use crate::{deadlines, faults};
use pack::corpus::{Case, Kind, CHANGE, LINE, PREVIEW};
use pack::layout::{numbers, Shape, TABLES};
use pack::row::{pack, Row};
use pack::RECORD;

/// A line, the number of a record and a row for it.
pub fn case(rng: &mut Rng) -> Case {
    let mut case = line(rng);
    let number = number(rng, &case.pack);
    let row = row(rng, &mut case, number as usize);
    case.kind = rng.pick(&[CHANGE, PREVIEW]);
    case.rest = [&number.to_be_bytes(), &(row.len() as u32).to_be_bytes(), &row[..]].concat();
    case
}

/// Mostly accepted; else damaged, badly packed or empty. A third have deadlines, some of them at fault.
fn line(rng: &mut Rng) -> Case {
    let (stations, boundaries) = (rng.below(4), rng.below(3));
    let extent = Extent { size: SMALL, stations, boundaries, doubled: false };
    let (mut rows, mut texts) = grown(rng, Kind::Federate, extent);
    let fault = rng.below(16);
    if fault < 2 {
        damage(rng, &mut rows, &mut texts, None);
    }
    let mut case =
        Case { kind: LINE, pack: pack(&rows), batch: texts.batch, house: texts.house, rest: vec![] };
    match fault {
        2 => faults::spoil(rng, &mut case),
        3 => case.pack.truncate(rng.pick(&[0, 0, 63, 64, 65])),
        4..=8 => deadlines::add(rng, &mut case),
        _ => {}
    }
    case
}

/// A record of any table, each table as likely as any other; or one past the last, near or where 64 times its number is small again in 32 bits.
fn number(rng: &mut Rng, pack: &[u8]) -> u32 {
    let records: Vec<u8> = pack.chunks_exact(RECORD).map(|record| record[0]).collect();
    let count = records.len() as u32;
    if count == 0 || rng.chance(1, 8) {
        let around = 1 << 26;
        let near = [count, count, count + 1, 2 * count];
        let far = [around, around + count / 2, u32::MAX - 1, u32::MAX];
        let past = rng.pick(&[near, far]);
        return rng.pick(&past);
    }
    let mut tables = records.clone();
    tables.sort();
    tables.dedup();
    let table = rng.pick(&tables);
    let places: Vec<u32> = (0..count).filter(|at| records[*at as usize] == table).collect();
    rng.pick(&places)
}

/// A row for a record, or for one past the last: the record with a change, another record, or some bytes more or less.
fn row(rng: &mut Rng, case: &mut Case, number: usize) -> Vec<u8> {
    let records: Vec<Vec<u8>> = case.pack.chunks_exact(RECORD).map(<[u8]>::to_vec).collect();
    let Some(other) = (!records.is_empty()).then(|| rng.pick(&records)) else {
        return vec![0; rng.pick(&[0, 63, RECORD, 65])];
    };
    let mut row = records.get(number).unwrap_or(&other).clone();
    match rng.below(16) {
        0 => {}
        1..=4 => tune(rng, &mut row),
        5..=8 => spoil(rng, case, number, &mut row),
        9 | 10 => row = like(rng, &records, &row),
        11 => row = other,
        12 => row[0] = rng.pick(&[row[0] ^ 1, row[0].wrapping_add(1), row[0].wrapping_sub(1), 0, 26, 255]),
        13 => stray(rng, &mut row),
        _ => row.resize(rng.pick(&[0, 1, 63, 63, 65, 65, 128, 4096]), 0),
    }
    row
}

/// Another record of the same table.
fn like(rng: &mut Rng, records: &[Vec<u8>], row: &[u8]) -> Vec<u8> {
    let same: Vec<Vec<u8>> = records.iter().filter(|record| record[0] == row[0]).cloned().collect();
    if same.is_empty() {
        row.to_vec()
    } else {
        rng.pick(&same)
    }
}

/// Another slot, bound, level, delay or the like: a number that points into no table.
fn tune(rng: &mut Rng, record: &mut Vec<u8>) {
    if record[0] as usize >= TABLES.len() {
        return;
    }
    let mut row = Row::read(record);
    let layout = numbers(row.table);
    let is_free = |at: &usize| {
        let field = layout[*at].field;
        field.to.is_none() && matches!(field.shape, Shape::W | Shape::D) && row.present(*at)
    };
    let free: Vec<usize> = (0..layout.len()).filter(is_free).collect();
    if free.is_empty() {
        return;
    }
    let at = rng.pick(&free);
    let most = u64::MAX >> (64 - 8 * layout[at].bytes);
    let (old, any) = (row.numbers[at], rng.next());
    row.numbers[at] = rng.pick(&[old.wrapping_add(1), old.wrapping_sub(1), 0, 1, most, any]) & most;
    *record = row.record().to_vec();
}

/// One or two fields of the record changed, or its bits, as for damaged rows; texts grow by what its identities name.
fn spoil(rng: &mut Rng, case: &mut Case, number: usize, record: &mut Vec<u8>) {
    let known = |record: &[u8]| (record[0] as usize) < TABLES.len();
    if number >= case.pack.len() / RECORD || !case.pack.chunks_exact(RECORD).all(known) {
        return stray(rng, record);
    }
    let mut rows: Vec<Row> = case.pack.chunks_exact(RECORD).map(Row::read).collect();
    let mut texts = Texts { batch: case.batch.clone(), house: case.house.clone() };
    for _ in 0..rng.between(1, 2) {
        if rng.chance(1, 4) {
            change_bits(rng, &mut rows, number);
        } else {
            change_number(rng, &mut rows, number, &mut texts);
        }
    }
    *record = rows[number].record().to_vec();
    (case.batch, case.house) = (texts.batch, texts.house);
}

/// A bit of byte 1 or 2, another byte 3, or a byte after the fields.
fn stray(rng: &mut Rng, record: &mut [u8]) {
    match rng.below(4) {
        0 => record[1] ^= 1 << rng.below(8),
        1 => record[2] ^= 1 << rng.below(8),
        2 => record[3] = rng.between(1, 255) as u8,
        _ => record[rng.between(56, 63) as usize] ^= 1 << rng.below(8),
    }
}
