//! What the examples read.
use std::{fs, io};

/// The pack of a directory, its batch text and its house text.
pub fn read(dir: &str, pack: &str) -> io::Result<[Vec<u8>; 3]> {
    let [pack, batch, house] = [pack, "batch.txt", "house.txt"].map(|name| fs::read(format!("{dir}/{name}")));
    Ok([pack?, batch?, house?])
}
