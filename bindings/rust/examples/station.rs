//! Whether a station may be loaded, and whether its levels rise: `station DIR`, with its station.pack, batch.txt and house.txt.
mod files;

use image_check::{check_enclave, check_rising, Answer, Refusal};
use std::env;
use std::error::Error;

fn say(check: &str, answer: Answer) {
    println!("{check}: {answer}");
    if let Answer::Refused(refusal) = answer {
        println!("> {refusal}");
    }
    if let Answer::Refused(Refusal::LevelNotRising { reaction, target }) = answer {
        println!("  Plan reaction {target} on a level above that of reaction {reaction}.");
    }
}

fn main() -> Result<(), Box<dyn Error>> {
    let dir = env::args().nth(1).ok_or("usage: station DIR")?;
    let [pack, batch, house] = files::read(&dir, "station.pack")?;
    say("station", check_enclave(&pack, &batch, &house));
    say("rising", check_rising(&pack, &batch, &house));
    Ok(())
}
