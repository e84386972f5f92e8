//! A record of a line tried and changed: `change DIR SLOTS`, with line.pack, batch.txt and house.txt. It gives the first station so many state slots, in the
//! pack that was read: nothing is written to DIR.
mod files;

use image_check::{change_record, preview_record, CHANGE_STACK};
use std::error::Error;
use std::ops::Range;
use std::{env, thread};

/// The number of the first station's record, and where its state slots stand in it.
const STATION: u32 = 1;
const STATE_SLOTS: Range<usize> = 12..16;

fn change(mut pack: Vec<u8>, batch: &[u8], house: &[u8], slots: u32) {
    let mut row = pack.chunks(64).nth(STATION as usize).unwrap_or_default().to_vec();
    if row.len() == 64 {
        row[STATE_SLOTS].copy_from_slice(&slots.to_be_bytes());
    }
    let before = pack.clone();
    println!("preview: {}", preview_record(&pack, batch, house, STATION, &row));
    println!("change: {}", change_record(&mut pack, batch, house, STATION, &row));
    let changed = pack.iter().zip(&before).filter(|(new, old)| new != old).count();
    println!("bytes changed: {changed}");
}

fn main() -> Result<(), Box<dyn Error>> {
    let words: Vec<String> = env::args().collect();
    let [_, dir, slots] = &words[..] else {
        return Err("usage: change DIR SLOTS".into());
    };
    let ([pack, batch, house], slots) = (files::read(dir, "line.pack")?, slots.parse()?);
    let changing =
        thread::Builder::new().stack_size(CHANGE_STACK).spawn(move || change(pack, &batch, &house, slots))?;
    changing.join().map_err(|_| "the change failed".into())
}
