//! The night's check of lines beside the day's, where both accept.
use crate::measure::{alternate, estimate, keep, Effort};
use crate::sample::Sample;
use crate::stats::{growth, Spread};
use crate::{linked, routes, show, stations};
use pack::corpus::{Case, NIGHT};
use std::hint::black_box;

/// What is measured, and a pack of at most so many records.
const KINDS: [(&str, fn(usize) -> Sample); 4] = [
    ("routes, paired across two stations", routes::across_two),
    ("routes, paired across many stations", routes::across_many),
    ("scopes with eight ancestors", stations::deep_scopes),
    ("the smallest station, many in a line", stations::line),
];

/// In records, rising.
const SIZES: [usize; 6] = [35, 256, 1024, 4096, 16_384, 65_536];

/// Prints the rows; whether all answers agree.
pub fn run(quick: bool, effort: Effort) -> bool {
    println!(
        "\n{:<37} {:>9} {:>13} {:>10} {:>10}   ratio (quartiles)",
        "the night's check", "pack", "named", "by day", "at night"
    );
    let sizes = if quick { &SIZES[..3] } else { &SIZES[..] };
    let mut agreed = true;
    for (name, make) in KINDS {
        let points: Vec<Option<(f64, f64)>> =
            sizes.iter().map(|size| row(name, make(*size), effort)).collect();
        agreed &= points.iter().all(Option::is_some);
        let last: Vec<(f64, f64)> = points.into_iter().flatten().rev().take(3).collect();
        if !quick && last.len() == 3 {
            println!("{:<37} growth at night {:.2}", "", growth(&last));
        }
    }
    agreed
}

/// A line of the table, as bytes and the median at night; none where the answers differ.
fn row(name: &str, sample: Sample, effort: Effort) -> Option<(f64, f64)> {
    let (bytes, named, expected) = (sample.bytes() as f64, sample.named, sample.expected);
    let day = sample.case;
    let night = Case { kind: NIGHT, ..day.clone() };
    for case in [&day, &night] {
        let (ours, oracle) = (linked::answer(case), check::answer(case));
        if ours != expected || oracle != expected {
            println!("{name}: DIFFERENT, made for: {expected}; this check: {ours}; the oracle: {oracle}");
            return None;
        }
    }
    let by_day = || keep(linked::run(black_box(&day)));
    let at_night = || keep(linked::run(black_box(&night)));
    let sides = [(&by_day as &dyn Fn(), estimate(None, &by_day)), (&at_night, estimate(None, &at_night))];
    let times = alternate(&sides, effort);
    println!(
        "{name:<37} {:>9} {:>13} {:>10} {:>10}   {}",
        show::count(day.pack.len() as u64),
        show::count(named),
        show::time(Spread::of(&times[0]).median()),
        show::time(Spread::of(&times[1]).median()),
        show::ratio(&Spread::of_ratios(&times[1], &times[0])),
    );
    Some((bytes, Spread::of(&times[1]).median()))
}
