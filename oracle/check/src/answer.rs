//! One answer and its line.
use crate::change::Changed;
use crate::lent;
use crate::tally::Tallied;
use pack::convert::Converted;
use crate::tree::Grown;
use std::fmt;

#[derive(Clone, Debug, PartialEq, Eq)]
pub enum Answer {
    /// `stations` for a federate only.
    Accepted { stations: Option<u64>, links: u64 },
    /// The refusal's number and the numbers after it.
    Refused(Vec<u64>),
    /// The reactor that the mode asked belongs to.
    Owner(u64),
    /// What changing or trying a record gave.
    Change(Changed),
    /// What the converter gave, and the output after it.
    Converted(Converted),
    /// How many other reactions the one that is asked reaches.
    Reached(u64),
    /// An answer, and the lent bytes as they are after it.
    Lent(Box<Answer>, Vec<u8>),
    /// What each step of a tally gave.
    Tally(Tallied),
    /// What was asked of scope trees gave.
    Tree(Grown),
}

impl fmt::Display for Answer {
    fn fmt(&self, to: &mut fmt::Formatter<'_>) -> fmt::Result {
        match self {
            Answer::Accepted { stations: Some(stations), links } => {
                write!(to, "accepted {stations} {links}")
            }
            Answer::Accepted { stations: None, links } => write!(to, "accepted {links}"),
            Answer::Refused(numbers) => refused(to, numbers),
            Answer::Owner(reactor) => write!(to, "owner {reactor}"),
            Answer::Change(changed) => changed.fmt(to),
            Answer::Converted(Converted { refusal, output }) => {
                match refusal {
                    None => write!(to, "converted")?,
                    Some(numbers) => refused(to, numbers)?,
                }
                write!(to, " | {}", lent::digits(output))
            }
            Answer::Reached(count) => write!(to, "reached {count}"),
            Answer::Lent(answer, bytes) if bytes.is_empty() => write!(to, "{answer} | -"),
            Answer::Lent(answer, bytes) => {
                write!(to, "{answer} | ")?;
                bytes.iter().try_for_each(|byte| write!(to, "{byte:02x}"))
            }
            Answer::Tally(tallied) => tallied.fmt(to),
            Answer::Tree(grown) => grown.fmt(to),
        }
    }
}

fn refused(to: &mut fmt::Formatter<'_>, numbers: &[u64]) -> fmt::Result {
    write!(to, "refused")?;
    numbers.iter().try_for_each(|number| write!(to, " {number}"))
}
