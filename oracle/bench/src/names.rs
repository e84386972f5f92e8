//! Identities: rising names of four letters, and their places in the lent texts.
use pack::TEXT_LIMIT;

/// Where an identity stands.
#[derive(Clone, Copy)]
pub struct Place {
    pub house: u8,
    pub start: u64,
    pub length: u64,
}

/// Letters of a name.
const WIDTH: usize = 4;
/// Names that one text holds.
const HELD: usize = TEXT_LIMIT / WIDTH;
/// Names that both texts hold.
pub const MOST: usize = 2 * HELD;

/// The name of this number; names rise with their numbers.
fn name(number: usize) -> [u8; WIDTH] {
    [26 * 26 * 26, 26 * 26, 26, 1].map(|weight| b'a' + (number / weight % 26) as u8)
}

/// Where the name of this number stands: the batch text first, then the house text.
pub fn place(number: usize) -> Place {
    assert!(number < MOST, "{number} names");
    let start = number % HELD * WIDTH;
    Place { house: (number / HELD) as u8, start: start as u64, length: WIDTH as u64 }
}

/// The batch and the house text that hold the first so many names.
pub fn texts(count: usize) -> (Vec<u8>, Vec<u8>) {
    let text = |numbers: std::ops::Range<usize>| numbers.flat_map(name).collect();
    (text(0..count.min(HELD)), text(HELD..count.max(HELD)))
}
