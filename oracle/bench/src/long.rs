//! Long identities: beginnings of one text of 65,536 bytes, so that each shares all of a shorter one.
use crate::names::Place;
use crate::routes::two_stations;
use crate::rows::{binding, enclave, reactor, scope, STATE};
use crate::sample::{links, Sample};
use pack::TEXT_LIMIT;

/// Scalars of one to four bytes.
pub const MIXED: &str = "aé漢😀";

/// The last so many beginnings of a text, rising, cut between scalars.
fn beginnings(text: &str, count: usize) -> Vec<Place> {
    let ends = text.char_indices().map(|(at, scalar)| at + scalar.len_utf8());
    let ends: Vec<usize> = ends.collect();
    let ends = &ends[ends.len() - count..];
    ends.iter().map(|end| Place { house: 0, start: 0, length: *end as u64 }).collect()
}

/// A text at the limit, or a little shorter where a scalar would be cut.
pub fn text(scalars: &str) -> String {
    scalars.repeat(TEXT_LIMIT / scalars.len())
}

/// A station of so many records with as many bindings as that leaves.
fn bindings(records: usize, text: String) -> Sample {
    let ids = beginnings(&text, records - 3);
    let mut rows = vec![enclave(ids[0], 1, 0), reactor(), scope(None)];
    rows.extend(ids.iter().map(|id| binding(*id, STATE)));
    Sample::enclave(&rows, (text.into_bytes(), vec![]), links(0))
}

pub fn ascii_bindings(records: usize) -> Sample {
    bindings(records, text("a"))
}

pub fn mixed_bindings(records: usize) -> Sample {
    bindings(records, text(MIXED))
}

/// Two stations with halves of long boundaries.
pub fn boundaries(records: usize) -> Sample {
    let text = text("a");
    let ids = beginnings(&text, (records - 13) / 2);
    let short = [1, 2].map(|length| Place { house: 0, start: 0, length });
    two_stations(short, &ids, (text.into_bytes(), vec![]))
}
