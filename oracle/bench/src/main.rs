//! Measures boomerang's Rust and this check on the same packs: bench [FAMILY..] [--quick]
mod chance;
mod changes;
mod convert;
mod deadlines;
mod decode;
mod edges;
mod families;
mod linked;
mod long;
mod measure;
mod names;
mod night;
mod packs;
mod refused;
mod rising;
mod routes;
mod rows;
mod rules;
mod rust;
mod sample;
mod show;
mod stations;
mod stats;
mod table;
mod texts;
mod wide;

use families::FAMILIES;
use measure::{Effort, LEAST};
use pack::rng;
use std::process::ExitCode;

const TEXTS: &str = "texts";
const NIGHT: &str = "night";
const CHANGES: &str = "changes";
const CONVERT: &str = "convert";
const RISING: &str = "rising";

struct Options {
    names: Vec<String>,
    quick: bool,
}

impl Options {
    fn read() -> Option<Self> {
        let (options, names): (Vec<_>, Vec<_>) =
            std::env::args().skip(1).partition(|word| word.starts_with('-'));
        let own = [TEXTS, NIGHT, CHANGES, CONVERT, RISING];
        let known = |name: &String| own.contains(&name.as_str()) || FAMILIES.iter().any(|family| family.name == *name);
        let understood = options.iter().all(|option| option == "--quick") && names.iter().all(known);
        understood.then_some(Options { names, quick: !options.is_empty() })
    }

    fn takes(&self, name: &str) -> bool {
        self.names.is_empty() || self.names.iter().any(|named| named == name)
    }

    fn effort(&self) -> Effort {
        match self.quick {
            true => Effort { budget: 0.3e6, repetitions: LEAST },
            false => Effort { budget: 0.5e9, repetitions: 15 },
        }
    }
}

fn main() -> ExitCode {
    let Some(options) = Options::read() else {
        eprintln!("bench [FAMILY..] [--quick], a family being {NIGHT}, {TEXTS}, {CHANGES}, {CONVERT}, {RISING} or one of:");
        FAMILIES.iter().for_each(|family| eprintln!("  {:<21} {}", family.name, family.about));
        return ExitCode::from(2);
    };
    table::head(options.effort());
    let mut agreed = true;
    for family in FAMILIES.iter().filter(|family| options.takes(family.name)) {
        agreed &= match options.quick {
            true => table::run(family, &family.sizes[..3], options.effort()),
            false => table::run(family, family.sizes, options.effort()),
        };
    }
    if options.takes(NIGHT) {
        agreed &= night::run(options.quick, options.effort());
    }
    if options.takes(CONVERT) {
        agreed &= convert::run(options.effort(), options.quick);
    }
    if options.takes(RISING) {
        agreed &= rising::run(options.quick, options.effort());
    }
    if options.takes(TEXTS) {
        agreed &= texts::run(options.effort());
        agreed &= chance::agree(1_000_000);
        agreed &= edges::agree(options.quick);
    }
    if options.takes(CHANGES) {
        agreed &= changes::run(options.effort(), options.quick);
    }
    println!("\n{}", if agreed { "all answers agree" } else { "SOME ANSWERS DIFFER" });
    ExitCode::from(!agreed as u8)
}
