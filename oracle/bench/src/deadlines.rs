//! Reactions of one reactor, each with a deadline.
use crate::names::{place, texts};
use crate::rows::{binding, enclave, reactor, scope, REACTION, STATE};
use crate::sample::{links, Sample};
use pack::layout::{DEADLINES, REACTIONS};
use pack::row::Row;

/// Records of the station beside its reactions and deadlines.
const STATION: usize = 5;

pub fn station(records: usize) -> Sample {
    let count = (records - STATION) as u64 / 2;
    let mut rows = vec![enclave(place(0), 1, 0), reactor()];
    rows.extend((0..count).map(reaction));
    rows.extend([scope(None), binding(place(0), STATE), binding(place(1), REACTION)]);
    rows.extend((0..count).map(|reaction| Row::new(DEADLINES, &[reaction, 1_000_000])));
    Sample::enclave(&rows, texts(2), links(0))
}

/// A reaction of reactor 0 in scope 0, with this level and empty ranges.
fn reaction(level: u64) -> Row {
    Row::new(REACTIONS, &[0, 0, level, 1, 0, 0, 0, 0, 0, 0, 0, 0, 0])
}
