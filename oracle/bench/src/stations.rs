//! Document 01's smallest station: alone, in a line, many in a line, and with one chain of parents.
use crate::names::{place, texts};
use crate::rows::{binding, enclave, federate, reactor, scope, STATE};
use crate::sample::{links, stations, Sample};
use check::Answer;
use pack::row::Row;

/// The smallest station, with the name of this number.
fn smallest(number: usize) -> [Row; 4] {
    [enclave(place(number), 1, 0), reactor(), scope(None), binding(place(0), STATE)]
}

pub fn alone() -> Sample {
    Sample::enclave(&smallest(0), texts(1), links(0))
}

/// As many of the smallest stations in a line as so many records hold, perhaps none.
pub fn line(records: usize) -> Sample {
    let count = (records - 1) / 4;
    let mut rows = vec![federate(place(0), count as u64)];
    rows.extend((0..count).flat_map(smallest));
    Sample::federate(&rows, texts(count.max(1)), stations(count as u64))
}

/// Scope i is below scope i - 1.
pub fn chain_to_first(records: usize) -> Sample {
    chain(records, |at, _| at.checked_sub(1))
}

/// Scope i is below scope i + 1.
pub fn chain_to_last(records: usize) -> Sample {
    chain(records, |at, count| (at + 1 < count).then_some(at + 1))
}

/// One station in a line, whose scopes stand in chains of nine, each below the one before.
pub fn deep_scopes(records: usize) -> Sample {
    let count = records as u64 - 4;
    let mut rows = vec![federate(place(0), 1), enclave(place(0), 1, 0), reactor()];
    rows.extend((0..count).map(|at| scope((at % 9 > 0).then(|| at - 1))));
    rows.push(binding(place(0), STATE));
    let links = (0..count).map(|at| at % 9).sum();
    Sample::federate(&rows, texts(1), Answer::Accepted { stations: Some(1), links })
}

fn chain(records: usize, parent: fn(u64, u64) -> Option<u64>) -> Sample {
    let count = records as u64 - 3;
    let mut rows = vec![enclave(place(0), 1, 0), reactor()];
    rows.extend((0..count).map(|at| scope(parent(at, count))));
    rows.push(binding(place(0), STATE));
    Sample::enclave(&rows, texts(1), links(count * (count - 1) / 2))
}
