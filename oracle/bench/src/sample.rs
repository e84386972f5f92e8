//! A pack to be measured, with the answer that it was made for.
use check::Answer;
use pack::corpus::Case;
use pack::row::{pack, Row};

pub struct Sample {
    pub case: Case,
    pub expected: Answer,
    /// Bytes of all identities, each counted where it is named.
    pub named: u64,
}

impl Sample {
    /// The rows of an enclave; `texts` are batch and house.
    pub fn enclave(rows: &[Row], texts: (Vec<u8>, Vec<u8>), expected: Answer) -> Self {
        Sample::new(0, rows, texts, expected)
    }

    pub fn federate(rows: &[Row], texts: (Vec<u8>, Vec<u8>), expected: Answer) -> Self {
        Sample::new(1, rows, texts, expected)
    }

    fn new(kind: u8, rows: &[Row], (batch, house): (Vec<u8>, Vec<u8>), expected: Answer) -> Self {
        let named = rows.iter().map(named).sum();
        Sample { case: Case { kind, pack: pack(rows), batch, house, ..Case::default() }, expected, named }
    }

    /// Bytes that have to be read: the pack and the identities where they are named.
    pub fn bytes(&self) -> u64 {
        self.case.pack.len() as u64 + self.named
    }
}

fn named(row: &Row) -> u64 {
    row.identities().map(|(at, _)| row.numbers[at + 1]).sum()
}

/// A station is accepted with these links.
pub fn links(links: u64) -> Answer {
    Answer::Accepted { stations: None, links }
}

/// A line of so many stations is accepted.
pub fn stations(stations: u64) -> Answer {
    Answer::Accepted { stations: Some(stations), links: 0 }
}
