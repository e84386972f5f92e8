//! The reactor that a mode belongs to.
use crate::{library, Refusal};
use std::fmt;

/// Whose mode it is. It is shown as the program `replay` shows it.
#[derive(Clone, Copy, Debug, PartialEq, Eq)]
pub enum Owner {
    /// The only reactor whose span holds the mode, which is the one that the mode names.
    Reactor(u32),
    /// The station's first fault, or that it has no such mode.
    Refused(Refusal),
}

impl fmt::Display for Owner {
    fn fmt(&self, f: &mut fmt::Formatter<'_>) -> fmt::Result {
        match self {
            Owner::Reactor(reactor) => write!(f, "owner {reactor}"),
            Owner::Refused(refusal) => write!(f, "refused {}", refusal.numbers()),
        }
    }
}

/// The reactor that a mode of a station belongs to.
pub fn mode_owner(pack: &[u8], batch: &[u8], house: &[u8], mode: u32) -> Owner {
    let answered = library::mode_owner([pack, batch, house], mode);
    answered.map_or_else(Owner::Refused, |[reactor, _]| Owner::Reactor(reactor as u32))
}
