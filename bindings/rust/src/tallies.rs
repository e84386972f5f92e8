//! A running tally of line answers, and its fractions.
use crate::{library, Refusal};
use std::fmt;

/// A running tally of line answers; its default is the tally of no answers. Numbers that no sequence of answers gives are refused in every question:
/// [`Refusal::NoSuchTally`].
#[repr(C)]
#[derive(Clone, Copy, Debug, Default, PartialEq, Eq)]
pub struct Tally {
    /// How many answers were added, at most 1,000,000.
    pub answers: u64,
    /// How many of them are accepted.
    pub accepted: u64,
    /// The sum of the links of these.
    pub links: u64,
}

/// A fraction in lowest terms.
#[derive(Clone, Copy, Debug, PartialEq, Eq)]
pub struct Fraction {
    /// The number above the line.
    pub numerator: u64,
    /// The number below it, which is not 0.
    pub denominator: u64,
}

impl fmt::Display for Fraction {
    fn fmt(&self, f: &mut fmt::Formatter<'_>) -> fmt::Result {
        write!(f, "{}/{}", self.numerator, self.denominator)
    }
}

impl Tally {
    /// Adds an accepted answer with its links, or leaves the tally as it was: [`Refusal::TallyFull`] or [`Refusal::LinkSumTooLarge`].
    pub fn add_accepted(&mut self, links: u64) -> Result<(), Refusal> {
        library::add_accepted(self, links).map(|_| ())
    }

    /// Adds a refused answer, or leaves the tally as it was: [`Refusal::TallyFull`].
    pub fn add_refused(&mut self) -> Result<(), Refusal> {
        library::add_refused(self).map(|_| ())
    }

    /// The share of answers that are accepted, or [`Refusal::NothingToDivide`] where there is no answer.
    pub fn share(&self) -> Result<Fraction, Refusal> {
        library::share(self).map(fraction)
    }

    /// The mean links of an accepted answer, or [`Refusal::NothingToDivide`] where none is accepted.
    pub fn mean(&self) -> Result<Fraction, Refusal> {
        library::mean(self).map(fraction)
    }
}

fn fraction([numerator, denominator]: [u64; 2]) -> Fraction {
    Fraction { numerator, denominator }
}
