//! The reactor that a mode of a station belongs to: `owner DIR MODE`, with station.pack, batch.txt and house.txt.
mod files;

use image_check::{mode_owner, Field, Owner, Refusal, Table};
use std::env;
use std::error::Error;

fn main() -> Result<(), Box<dyn Error>> {
    let words: Vec<String> = env::args().collect();
    let [_, dir, mode] = &words[..] else {
        return Err("usage: owner DIR MODE".into());
    };
    let ([pack, batch, house], mode) = (files::read(dir, "station.pack")?, mode.parse()?);
    match mode_owner(&pack, &batch, &house, mode) {
        Owner::Reactor(reactor) => println!("modes[{mode}] is of reactors[{reactor}]"),
        Owner::Refused(Refusal::ReferenceOutOfBounds {
            table: Table::Modes,
            field: Field::Mode,
            rows,
            ..
        }) => println!("no modes[{mode}]: the station has {rows}"),
        Owner::Refused(refusal) => println!("{refusal}"),
    }
    Ok(())
}
