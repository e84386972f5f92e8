//! A tally of line answers: `tally [DIR..]` checks the line in each directory, and gives the share accepted and the mean links.
mod files;

use image_check::{check_federate, Answer, Fraction, Refusal, Tally};
use std::env;
use std::error::Error;

fn say(what: &str, asked: Result<Fraction, Refusal>) {
    match asked {
        Ok(fraction) => println!("{what}: {fraction}"),
        Err(refusal) => println!("{what}: refused {}\n> {refusal}", refusal.numbers()),
    }
}

fn main() -> Result<(), Box<dyn Error>> {
    let mut tally = Tally::default();
    for dir in env::args().skip(1) {
        let [pack, batch, house] = files::read(&dir, "line.pack")?;
        match check_federate(&pack, &batch, &house) {
            Answer::Federate { links, .. } => tally.add_accepted(links)?,
            _ => tally.add_refused()?,
        }
    }
    println!("answers: {}", tally.answers);
    say("share accepted", tally.share());
    say("mean links", tally.mean());
    Ok(())
}
