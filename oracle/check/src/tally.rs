//! The month in fractions (document 02, Wish 13): a tally, and what each step of a case gives.
use pack::tally::{read, Step};
use std::fmt;

/// The most answers that a tally takes.
const MOST: u64 = 1_000_000;

/// How many answers were taken, how many of them are accepted, and the links of these.
#[derive(Clone, Copy, Debug, PartialEq, Eq)]
pub struct Tally {
    pub answers: u64,
    pub accepted: u64,
    pub links: u64,
}

/// What a step gives.
#[derive(Clone, Copy, Debug, PartialEq, Eq)]
pub enum Given {
    Added,
    Fraction(u64, u64),
    Refused(u64),
}

/// What all steps of a case give, and the tally after them.
#[derive(Clone, Debug, PartialEq, Eq)]
pub struct Tallied {
    pub steps: Vec<Given>,
    pub after: Tally,
}

/// What the steps of a case give, one after the other, by what follows its parts.
pub fn of(rest: &[u8]) -> Tallied {
    let ([answers, accepted, links], steps) = read(rest);
    let mut tally = Tally { answers, accepted, links };
    let steps = steps.into_iter().map(|step| tally.take(step)).collect();
    Tallied { steps, after: tally }
}

impl Tally {
    fn take(&mut self, step: Step) -> Given {
        match step {
            Step::Refused => self.add(0, 0),
            Step::Accepted(links) => self.add(1, links),
            Step::Share => self.fraction(self.accepted, self.answers),
            Step::Mean => self.fraction(self.links, self.accepted),
        }
    }

    /// Whether a sequence gives it: no more accepted than answers, not too many of these, and links of accepted ones alone.
    fn is_given(self) -> bool {
        let refused = self.answers.checked_sub(self.accepted);
        refused.is_some() && self.answers <= MOST && (self.links == 0 || self.accepted > 0)
    }

    /// 46, 40 and 44, or one answer more.
    fn add(&mut self, accepted: u64, links: u64) -> Given {
        if !self.is_given() {
            return Given::Refused(46);
        }
        if self.answers == MOST {
            return Given::Refused(40);
        }
        let Ok(links) = u64::try_from(u128::from(self.links) + u128::from(links)) else {
            return Given::Refused(44);
        };
        *self = Tally { answers: self.answers + 1, accepted: self.accepted + accepted, links };
        Given::Added
    }

    /// 46 and 45, or one number over the other.
    fn fraction(self, above: u64, below: u64) -> Given {
        if !self.is_given() {
            return Given::Refused(46);
        }
        if below == 0 {
            return Given::Refused(45);
        }
        let common = common(above, below);
        Given::Fraction(above / common, below / common)
    }
}

/// The greatest common divisor by halves and differences; b is not 0.
fn common(mut a: u64, mut b: u64) -> u64 {
    if a == 0 {
        return b;
    }
    let twos = (a | b).trailing_zeros();
    a >>= a.trailing_zeros();
    while b != 0 {
        b >>= b.trailing_zeros();
        (a, b) = (a.min(b), a.abs_diff(b));
    }
    a << twos
}

impl fmt::Display for Given {
    fn fmt(&self, to: &mut fmt::Formatter<'_>) -> fmt::Result {
        match self {
            Given::Added => write!(to, "added"),
            Given::Fraction(above, below) => write!(to, "{above}/{below}"),
            Given::Refused(number) => write!(to, "refused {number}"),
        }
    }
}

impl fmt::Display for Tallied {
    fn fmt(&self, to: &mut fmt::Formatter<'_>) -> fmt::Result {
        let steps: Vec<String> = self.steps.iter().map(Given::to_string).collect();
        let blank = if steps.is_empty() { "" } else { " " };
        let Tally { answers, accepted, links } = self.after;
        write!(to, "{}{blank}| {answers} {accepted} {links}", steps.join(" ; "))
    }
}

#[cfg(test)]
mod tests {
    use super::*;

    fn tally(answers: u64, accepted: u64, links: u64) -> Tally {
        Tally { answers, accepted, links }
    }

    #[test]
    fn largest_common_divisors() {
        for a in 0..60 {
            for b in 1..60 {
                let divisors = (1..=b).filter(|k| a % k == 0 && b % k == 0);
                assert_eq!(common(a, b), divisors.max().unwrap(), "{a} and {b}");
            }
        }
        assert_eq!(common(u64::MAX, u64::MAX), u64::MAX);
        assert_eq!(common(1 << 63, 1_000_000), 64);
    }

    /// Those that come of at most five answers, each refused or accepted with up to two links.
    #[test]
    fn tallies_of_short_sequences() {
        let mut found = vec![tally(0, 0, 0)];
        for _ in 0..5 {
            for from in found.clone() {
                for (accepted, links) in [(0, 0), (1, 0), (1, 1), (1, 2)] {
                    let mut tally = from;
                    assert_eq!(tally.add(accepted, links), Given::Added);
                    found.push(tally);
                }
            }
            found.dedup();
        }
        let all = (0..=5).flat_map(|n| (0..=6).flat_map(move |a| (0..=2).map(move |l| tally(n, a, l))));
        for one in all {
            assert_eq!(one.is_given(), found.contains(&one), "{one:?}");
        }
    }

    #[test]
    fn order_of_refusals() {
        assert_eq!(tally(1_000_001, 0, 0).add(1, 1), Given::Refused(46));
        assert_eq!(tally(1_000_000, 1, u64::MAX).add(1, 1), Given::Refused(40));
        assert_eq!(tally(9, 1, u64::MAX).add(1, 1), Given::Refused(44));
        assert_eq!(tally(9, 1, u64::MAX).add(0, 0), Given::Added);
        assert_eq!(tally(5, 0, 1).fraction(1, 0), Given::Refused(46));
        assert_eq!(tally(5, 0, 0).fraction(0, 0), Given::Refused(45));
    }
}
