//! What follows the parts of a tally's case: its three numbers, and the steps taken from it.
use crate::corpus::{step_length, TALLY_HEAD};

/// An answer comes in, refused or accepted with its links, or a fraction is asked.
#[derive(Clone, Copy, Debug, PartialEq, Eq)]
pub enum Step {
    Refused,
    Accepted(u64),
    Share,
    Mean,
}

/// Answers taken, accepted ones, their links; and the steps, which the reader of a corpus has found whole.
pub fn read(rest: &[u8]) -> ([u64; 3], Vec<Step>) {
    let (head, mut left) = rest.split_at(TALLY_HEAD as usize);
    let mut steps = Vec::new();
    while let [kind, after @ ..] = left {
        let (numbers, next) = after.split_at(step_length(*kind).expect("a step of a known kind") as usize);
        steps.push(match kind {
            0 => Step::Refused,
            1 => Step::Accepted(number(numbers)),
            2 => Step::Share,
            _ => Step::Mean,
        });
        left = next;
    }
    ([0, 8, 16].map(|at| number(&head[at..at + 8])), steps)
}

fn number(bytes: &[u8]) -> u64 {
    bytes.iter().fold(0, |number, byte| number << 8 | u64::from(*byte))
}
