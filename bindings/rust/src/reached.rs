//! What a reaction of a station with rising levels reaches.
use crate::library::{self, Answered};
use crate::Refusal;
use std::fmt;

/// Bytes of stack that are enough for [`reached_in_bytes`] and [`reached_in_bits`]: they go down as far as the longest chain of reactions that a pack can
/// hold. A thread of Rust's has as many unless it is asked for fewer.
pub const REACH_STACK: usize = 2 << 20;

/// How many other reactions one reaches. It is shown as the program `replay` shows it.
#[derive(Clone, Copy, Debug, PartialEq, Eq)]
pub enum Reached {
    /// So many.
    Count(u32),
    /// The fault found first; the scratch is as it was.
    Refused(Refusal),
}

impl fmt::Display for Reached {
    fn fmt(&self, f: &mut fmt::Formatter<'_>) -> fmt::Result {
        match self {
            Reached::Count(count) => write!(f, "reached {count}"),
            Reached::Refused(refusal) => write!(f, "refused {}", refusal.numbers()),
        }
    }
}

fn counted(answered: Answered) -> Reached {
    answered.map_or_else(Reached::Refused, |[count, _]| Reached::Count(count as u32))
}

/// How many other reactions one reaches, in a station that [`check_rising`](crate::check_rising) accepts. The first bytes of the scratch, one for each
/// reaction, are 1 for those and 0 for the others. It needs [`REACH_STACK`] bytes of stack.
pub fn reached_in_bytes(
    pack: &[u8],
    batch: &[u8],
    house: &[u8],
    reaction: u32,
    scratch: &mut [u8],
) -> Reached {
    counted(library::reached(library::reached_in_bytes_of_image, [pack, batch, house], reaction, scratch))
}

/// Answers as [`reached_in_bytes`] does, with a bit of the scratch for each reaction, from the lowest of the first byte; the last byte's other bits are 0.
pub fn reached_in_bits(
    pack: &[u8],
    batch: &[u8],
    house: &[u8],
    reaction: u32,
    scratch: &mut [u8],
) -> Reached {
    counted(library::reached(library::reached_in_bits_of_image, [pack, batch, house], reaction, scratch))
}
