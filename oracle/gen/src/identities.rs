//! Identities with every kind of UTF-8 fault, and identities at the ends of their texts.
use crate::damage::bad_name;
use crate::rng::Rng;
use crate::texts::{name, Texts};
use pack::layout::{numbers, Shape};
use pack::row::Row;

/// Sequences on both sides of every edge of the UTF-8 rule.
const SEQUENCES: [&[u8]; 52] = [
    b"\x80",
    b"\xbf",
    b"\xc0\x80",
    b"\xc1\xbf",
    b"\xc2",
    b"\xc2\x7f",
    b"\xc2\x80",
    b"\xc2\xa1",
    b"\xc2\xc0",
    b"\xdf\xbf",
    b"\xdf\xc0",
    b"\xdf",
    b"\xe0\x80\x80",
    b"\xe0\x9f\xbf",
    b"\xe0\xa0\x80",
    b"\xe0\xa0",
    b"\xe0",
    b"\xe0\xa0\x7f",
    b"\xe0\xa0\xc0",
    b"\xe1\x80\x80",
    b"\xe1\x7f\x80",
    b"\xec\xbf\xbf",
    b"\xed\x80\x80",
    b"\xed\x9f\xbf",
    b"\xed\xa0\x80",
    b"\xed\xbf\xbf",
    b"\xee\x80\x80",
    b"\xef\xbf\xbf",
    b"\xef\xbf",
    b"\xef\xc0\x80",
    b"\xf0\x80\x80\x80",
    b"\xf0\x8f\xbf\xbf",
    b"\xf0\x90\x80\x80",
    b"\xf0\x90\x80",
    b"\xf0\x90",
    b"\xf0",
    b"\xf0\x90\x80\x7f",
    b"\xf0\x90\xc0\x80",
    b"\xf1\x80\x80\x80",
    b"\xf1\x7f\x80\x80",
    b"\xf3\xbf\xbf\xbf",
    b"\xf4\x80\x80\x80",
    b"\xf4\x8f\xbf\xbf",
    b"\xf4\x90\x80\x80",
    b"\xf4\xbf\xbf\xbf",
    b"\xf4\x8f\xbf\xc0",
    b"\xf5\x80\x80\x80",
    b"\xf7\xbf\xbf\xbf",
    b"\xf8\x88\x80\x80\x80",
    b"\xfc\x84\x80\x80\x80\x80",
    b"\xfe",
    b"\xff",
];

/// Gives one or two identities a text on an edge of the rules.
pub fn spoil(rng: &mut Rng, rows: &mut [Row], texts: &mut Texts) {
    for _ in 0..rng.between(1, 2) {
        let part = match rng.below(8) {
            0 | 1 => bad_name(rng),
            2 => vec![rng.below(256) as u8, rng.below(256) as u8, rng.below(256) as u8],
            _ => around(rng),
        };
        let place = texts.place(rng, &part);
        let (at, first, bit) = some_identity(rng, rows);
        set(&mut rows[at], first, bit, place);
        if rng.chance(1, 4) {
            inside(rng, &mut rows[at], first);
        }
    }
}

fn around(rng: &mut Rng) -> Vec<u8> {
    let sequence = rng.pick(&SEQUENCES).to_vec();
    match rng.below(4) {
        0 => sequence,
        1 => [name(rng), sequence].concat(),
        2 => [sequence, name(rng)].concat(),
        _ => [name(rng), sequence, name(rng)].concat(),
    }
}

/// Moves a start or an end, so that it may fall inside a scalar.
fn inside(rng: &mut Rng, row: &mut Row, first: usize) {
    if row.numbers[first + 1] > 1 {
        row.numbers[first + 1] -= 1;
        row.numbers[first] += rng.below(2);
    }
}

/// Puts one identity on an end of its text, just inside or just outside.
pub fn to_an_end(rng: &mut Rng, rows: &mut [Row], texts: &mut Texts) {
    let (at, first, bit) = some_identity(rng, rows);
    let house = rng.below(2) as u8;
    let length = texts.text(house).len() as u64;
    let most = u64::from(u32::MAX);
    let less = length.saturating_sub(1);
    let (start, length) = rng.pick(&[
        (0, 0),
        (0, 1),
        (0, length),
        (0, length + 1),
        (less, 1),
        (less, 2),
        (length, 0),
        (length, 0),
        (length, 1),
        (length + 1, 0),
        (length, most),
        (most, length),
        (most, 0),
        (most, 1),
        (1, most),
        (most, most),
        (most - less, length),
    ]);
    set(&mut rows[at], first, bit, (house, start, length));
}

fn set(row: &mut Row, first: usize, bit: u8, (house, start, length): (u8, u64, u64)) {
    row.bits = row.bits & !(1 << bit) | house << bit;
    row.numbers[first] = start;
    row.numbers[first + 1] = length;
}

/// A row, the place of an identity's start in it, and the bit that names the text.
fn some_identity(rng: &mut Rng, rows: &[Row]) -> (usize, usize, u8) {
    let mut all = Vec::new();
    for (at, row) in rows.iter().enumerate() {
        for (first, number) in numbers(row.table).iter().enumerate() {
            if let (Shape::Identity(bit), 0) = (number.field.shape, number.part) {
                all.push((at, first, bit));
            }
        }
    }
    rng.pick(&all)
}
