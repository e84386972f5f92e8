//! Scope trees (document 02, Wish 10): every table of 1 to 4 bytes, from 0 to one more than may stand there, every wrong count and length, and longer ones.
use crate::rng::Rng;
use pack::corpus::{Case, FIRST_TREE, NEXT_TREE};
use pack::tree::written;

/// Counts around those that there are, and at the ends of one, of two and of four bytes.
const COUNTS: [u32; 14] = [0, 1, 2, 3, 4, 5, 6, 7, 255, 256, 257, 260, 65_537, u32::MAX];
/// Lengths around those that there are, and at the end of one byte.
const LENGTHS: [u64; 14] = [0, 1, 2, 3, 4, 5, 6, 7, 8, 255, 256, 257, 260, 1000];

/// Tables of so many bytes.
const fn tables(bytes: u32) -> u64 {
    (bytes as u64 + 2).pow(bytes)
}

const TABLES: u64 = tables(1) + tables(2) + tables(3) + tables(4);
const SHAPES: u64 = (COUNTS.len() * LENGTHS.len() * 2) as u64;
/// The cases that are listed one by one. A step that has no divisor in common with their number visits each once, in an order that mixes them.
const LISTED: u64 = TABLES + SHAPES;
const STEP: u64 = 769;

/// Those that are listed come first, then cases by chance.
pub fn case(rng: &mut Rng, index: u64) -> Case {
    let listed = index % LISTED * STEP % LISTED;
    let (kind, count, table) = if index >= LISTED {
        by_chance(rng)
    } else if listed < TABLES {
        let table = table(listed);
        (NEXT_TREE, table.len() as u32, table)
    } else {
        shape(rng, listed - TABLES)
    };
    let mut part =
        |chance| if rng.chance(chance, 100) { vec![b'x'; rng.between(1, 80) as usize] } else { vec![] };
    Case { kind, pack: part(4), batch: part(2), house: part(2), rest: written(count, &table) }
}

/// Table `number` of 1 to 4 bytes, each from 0 to one more than their number.
fn table(mut number: u64) -> Vec<u8> {
    let bytes = (1..=4)
        .find(|bytes| {
            let found = number < tables(*bytes);
            number -= if found { 0 } else { tables(*bytes) };
            found
        })
        .expect("a table below their number");
    let mut table = vec![0; bytes as usize];
    for byte in table.iter_mut().rev() {
        *byte = (number % (u64::from(bytes) + 2)) as u8;
        number /= u64::from(bytes) + 2;
    }
    table
}

/// A count and a length of the lists, with bytes by chance.
fn shape(rng: &mut Rng, number: u64) -> (u8, u32, Vec<u8>) {
    let [counts, lengths] = [COUNTS.len() as u64, LENGTHS.len() as u64];
    let kind = if number % 2 == 0 { FIRST_TREE } else { NEXT_TREE };
    let count = COUNTS[(number / 2 % counts) as usize];
    let length = LENGTHS[(number / 2 / counts % lengths) as usize];
    (kind, count, bytes(rng, count, length))
}

/// Bytes around the count, or any.
fn bytes(rng: &mut Rng, count: u32, length: u64) -> Vec<u8> {
    let most = if rng.chance(3, 4) { u64::from(count.min(253)) + 1 } else { 255 };
    (0..length).map(|_| rng.between(0, most) as u8).collect()
}

/// Mostly of a right shape; now and then long.
fn by_chance(rng: &mut Rng) -> (u8, u32, Vec<u8>) {
    let kind = rng.pick(&[FIRST_TREE, NEXT_TREE, NEXT_TREE, NEXT_TREE]);
    let count = if rng.chance(9, 10) { rng.between(1, 4) as u32 } else { rng.pick(&COUNTS) };
    let length = match rng.below(2000) {
        0 => rng.pick(&[65_535, 65_536]),
        1..=100 => rng.pick(&LENGTHS),
        101..=150 => rng.below(3000),
        _ => u64::from(count.min(300)),
    };
    let most =
        rng.pick(&[u64::from(count.min(254)), u64::from(count.min(254)), u64::from(count.min(253)) + 1]);
    let table = match rng.below(4) {
        0 => bytes(rng, count, length),
        1 => falling(rng, length, most),
        _ => (0..length).map(|_| rng.between(0, most) as u8).collect(),
    };
    (kind, count, table)
}

/// The last of the tables, or one like it: each scope under a later one, and the last under none.
fn falling(rng: &mut Rng, length: u64, most: u64) -> Vec<u8> {
    let under =
        |scope: u64| if scope + 1 < length { most.min(rng.between(scope + 2, length)) as u8 } else { 0 };
    (0..length).map(under).collect()
}
