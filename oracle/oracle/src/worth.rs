//! What a yes is worth, tried on every accepted station and line of a corpus.
use crate::{for_each, Done};
use check::worth::{broken, most_links};
use check::{answer, rows, stations, Answer};

/// Counts of what was tried: stations checked alone, lines, and the stations in these.
#[derive(Default)]
struct Tried {
    alone: u64,
    lines: u64,
    within: u64,
}

/// False, and a line for each, where something does not hold of a case that is accepted.
pub fn print(corpus: &str) -> Done {
    let mut tried = Tried::default();
    let mut holds = true;
    for_each(corpus, |number, case| {
        let Answer::Accepted { stations: of_line, links } = answer(&case) else {
            return Ok(());
        };
        let rows = rows(&case);
        let stations = stations(&rows);
        match of_line {
            None => tried.alone += 1,
            Some(_) => (tried.lines, tried.within) = (tried.lines + 1, tried.within + stations.len() as u64),
        }
        for (place, station) in stations.iter().enumerate() {
            if let Some(letter) = broken(station) {
                holds = false;
                println!("case {number}: ({letter}) does not hold of station {place}");
            }
        }
        if links > stations.iter().map(|station| most_links(station)).sum() {
            holds = false;
            println!("case {number}: too many links");
        }
        Ok(())
    })?;
    println!("{} stations alone, {} lines with {} stations", tried.alone, tried.lines, tried.within);
    Ok(holds && tried.alone + tried.within > 0)
}
