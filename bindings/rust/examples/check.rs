//! Whether a line may be loaded, by day and at night: `check DIR`, with its line.pack, batch.txt and house.txt.
mod files;

use image_check::{check_federate, check_federate_night, Answer, Refusal};
use std::env;
use std::error::Error;

fn say(when: &str, answer: Answer) {
    println!("{when}: {answer}");
    let Answer::Refused(refusal) = answer else {
        return;
    };
    println!("> {refusal}");
    match refusal {
        Refusal::StorageBoundExceeded { slot, .. } => {
            println!("  A machine with more than {slot} slots may take it.")
        }
        Refusal::ScopeTooDeep { enclave, .. } => {
            println!(
                "  By day it may be loaded; for the night nest the scopes of station {enclave} less deep."
            )
        }
        _ => {}
    }
}

fn main() -> Result<(), Box<dyn Error>> {
    let dir = env::args().nth(1).ok_or("usage: check DIR")?;
    let [pack, batch, house] = files::read(&dir, "line.pack")?;
    say("by day", check_federate(&pack, &batch, &house));
    say("at night", check_federate_night(&pack, &batch, &house));
    Ok(())
}
