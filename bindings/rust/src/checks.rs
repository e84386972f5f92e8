//! The checks of a station (an enclave) and of a line (a federate).
use crate::library::{self, Answered};
use crate::Refusal;
use std::fmt;

/// What a check answers. It is shown as the program `replay` shows it: `accepted`, or `refused` and the refusal's numbers.
#[derive(Clone, Copy, Debug, PartialEq, Eq)]
pub enum Answer {
    /// The station's image may be loaded.
    Enclave {
        /// How many parent links were followed.
        links: u64,
    },
    /// The line's image may be loaded.
    Federate {
        /// How many stations it has.
        enclaves: u32,
        /// How many parent links were followed.
        links: u64,
    },
    /// The first fault found.
    Refused(Refusal),
}

impl fmt::Display for Answer {
    fn fmt(&self, f: &mut fmt::Formatter<'_>) -> fmt::Result {
        match self {
            Answer::Enclave { links } => write!(f, "accepted {links}"),
            Answer::Federate { enclaves, links } => write!(f, "accepted {enclaves} {links}"),
            Answer::Refused(refusal) => write!(f, "refused {}", refusal.numbers()),
        }
    }
}

fn of_station(answered: Answered) -> Answer {
    answered.map_or_else(Answer::Refused, |[links, _]| Answer::Enclave { links })
}

/// The answer of a call that has a line's.
pub(crate) fn of_line(answered: Answered) -> Answer {
    answered.map_or_else(Answer::Refused, |[enclaves, links]| Answer::Federate {
        enclaves: enclaves as u32,
        links,
    })
}

/// Checks a station's image.
pub fn check_enclave(pack: &[u8], batch: &[u8], house: &[u8]) -> Answer {
    of_station(library::check(library::check_enclave_image, [pack, batch, house]))
}

/// Checks a station's image a second time: after the ordinary check, that levels rise. Each reaction must stand on a lower level than every reaction that
/// its ports trigger.
pub fn check_rising(pack: &[u8], batch: &[u8], house: &[u8]) -> Answer {
    of_station(library::check(library::check_rising_image, [pack, batch, house]))
}

/// Checks a line's image.
pub fn check_federate(pack: &[u8], batch: &[u8], house: &[u8]) -> Answer {
    of_line(library::check(library::check_federate_image, [pack, batch, house]))
}

/// Checks a line's image for the night: a yes of [`check_federate`] stands where the night's rules hold too, and else [`Refusal::TooManyReactors`],
/// [`Refusal::ScopeTooDeep`], [`Refusal::PhysicalRoute`] or [`Refusal::UnpairedRoute`] says which does not.
pub fn check_federate_night(pack: &[u8], batch: &[u8], house: &[u8]) -> Answer {
    of_line(library::check(library::check_federate_image_night, [pack, batch, house]))
}
