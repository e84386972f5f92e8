//! `gen SEED COUNT OUT [--from N] [--only MIX]`: a corpus of generated cases.
mod change;
mod convert;
mod damage;
mod deadlines;
mod deep;
mod faults;
mod grow;
mod identities;
mod line;
mod night;
mod plan;
mod rising;
mod styles;
mod tally;
mod texts;
mod tiny;
mod trees;

use pack::rng;
use std::fs::File;
use std::io::{self, BufWriter, Write};
use std::process::ExitCode;
use styles::{Mix, STYLES};

struct Run {
    seed: u64,
    count: u64,
    out: String,
    from: u64,
    mix: Mix,
}

fn main() -> ExitCode {
    let Some(run) = arguments(std::env::args().skip(1).collect()) else {
        let styles: Vec<&str> = STYLES.iter().map(|style| style.name).collect();
        eprintln!("gen SEED COUNT OUT [--from N] [--only MIX]");
        eprintln!(
            "MIX: all, station, line, packing, deadlines, large, deep, night, owner, change, convert, tally, trees, rising, {}",
            styles.join(", ")
        );
        return ExitCode::from(2);
    };
    match write(&run) {
        Ok(()) => ExitCode::SUCCESS,
        Err(fault) => {
            eprintln!("{}: {fault}", run.out);
            ExitCode::FAILURE
        }
    }
}

fn arguments(mut words: Vec<String>) -> Option<Run> {
    let mut option = |name: &str, otherwise: &str| {
        let Some(at) = words.iter().position(|word| word == name) else {
            return Some(otherwise.to_string());
        };
        let value = words.get(at + 1)?.clone();
        words.drain(at..at + 2);
        Some(value)
    };
    let from = option("--from", "0")?.parse().ok()?;
    let mix = Mix::named(&option("--only", "all")?)?;
    let [seed, count, out] = words.try_into().ok()?;
    Some(Run { seed: seed.parse().ok()?, count: count.parse().ok()?, out, from, mix })
}

fn write(run: &Run) -> io::Result<()> {
    let mut out = BufWriter::new(File::create(&run.out)?);
    for index in run.from..run.from + run.count {
        run.mix.case(run.seed, index).write(&mut out)?;
    }
    out.flush()
}
