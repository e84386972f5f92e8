//! A record tried in lines of small stations, beside the check of the line: a preview checks it as it stands, and a copy with the row.
use crate::measure::{alternate, estimate, keep, Effort};
use crate::stats::{growth, Spread};
use crate::{linked, show, stations};
use image_check::preview_record;
use pack::RECORD;
use std::hint::black_box;

/// In records: up to the largest pack that is copied into the small array, one station more, and up to the pack's limit.
const SIZES: &[usize] = &[5, 17, 257, 1021, 1025, 4097, 16_385, 65_533];

/// Prints the rows; whether all answers agree.
pub fn run(effort: Effort, quick: bool) -> bool {
    println!(
        "\n{:<21} {:>9} {:>9} {:>9}   preview / two checks (quartiles)",
        "changes", "pack", "check", "preview"
    );
    let sizes = if quick { &SIZES[..5] } else { SIZES };
    let mut points = Vec::new();
    for records in sizes {
        let Some(point) = row(*records, effort) else {
            return false;
        };
        points.push(point);
    }
    if !quick {
        println!("growth of the preview: {:.2}", growth(&points[points.len() - 3..]));
    }
    true
}

/// A pack's bytes, and the median of the preview.
fn row(records: usize, effort: Effort) -> Option<(f64, f64)> {
    let case = stations::line(records).case;
    let number = records / 8 * 4 + 1;
    let mut slots = case.pack[number * RECORD..][..RECORD].to_vec();
    slots[12] = 1;
    let tried = || preview_record(&case.pack, &case.batch, &case.house, number as u32, &slots);
    if tried() != linked::run(&case) {
        println!("{records} records: DIFFERENT: {}", tried());
        return None;
    }
    let check = || keep(linked::run(black_box(&case)));
    let preview = || keep(black_box(tried()));
    let times = alternate(&[(&check, estimate(None, &check)), (&preview, estimate(None, &preview))], effort);
    let twice: Vec<f64> = times[0].iter().map(|time| 2.0 * time).collect();
    let [alone, tried] = [&times[0], &times[1]].map(|times| Spread::of(times).median());
    println!(
        "{:<21} {:>9} {:>9} {:>9}   {}",
        "stations",
        show::count(case.pack.len() as u64),
        show::time(alone),
        show::time(tried),
        show::ratio(&Spread::of_ratios(&times[1], &twice)),
    );
    Some((case.pack.len() as f64, tried))
}
