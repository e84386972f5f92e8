//! What a reaction of a station reaches, marked in bytes and in bits: `reached DIR REACTION`, with station.pack, batch.txt and house.txt.
mod files;

use image_check::{reached_in_bits, reached_in_bytes, Reached, Table};
use std::env;
use std::error::Error;

/// The answer, and the reactions that are marked; where it refuses nothing is.
fn say(how: &str, answer: Reached, count: usize, marked: impl Fn(usize) -> bool) {
    println!("{how}: {answer}");
    match answer {
        Reached::Count(_) => {
            (0..count).filter(|at| marked(*at)).for_each(|reaction| println!("  reactions[{reaction}]"))
        }
        Reached::Refused(refusal) => println!("> {refusal}"),
    }
}

fn main() -> Result<(), Box<dyn Error>> {
    let words: Vec<String> = env::args().collect();
    let [_, dir, reaction] = &words[..] else {
        return Err("usage: reached DIR REACTION".into());
    };
    let ([pack, batch, house], reaction) = (files::read(dir, "station.pack")?, reaction.parse()?);
    let count = pack.chunks(64).filter(|record| record[0] == Table::Reactions as u8).count();
    let (mut bytes, mut bits) = (vec![0; count], vec![0; count.div_ceil(8)]);
    let answer = reached_in_bytes(&pack, &batch, &house, reaction, &mut bytes);
    say("in bytes", answer, count, |at| bytes[at] == 1);
    let answer = reached_in_bits(&pack, &batch, &house, reaction, &mut bits);
    say("in bits", answer, count, |at| bits[at / 8] >> (at % 8) & 1 == 1);
    Ok(())
}
