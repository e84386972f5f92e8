//! One pack: the answers compared, then the four sides timed.
use crate::decode::Tables;
use crate::linked;
use crate::measure::{alternate, estimate, keep, timed, Effort, Side};
use crate::rules;
use crate::rust::{with_decoding, with_rules, Decoded};
use crate::sample::Sample;
use check::Answer;
use std::hint::black_box;

/// From so many nanoseconds on the oracle is not asked, and decoding is timed apart from the Rust's check.
const SLOW: f64 = 0.5e9;
/// The oracle keeps a copy of every identity.
const MOST_NAMED: u64 = 64 << 20;

/// Nanoseconds in each repetition.
pub struct Times {
    /// The Rust with the packing rules and decoding.
    pub ruled: Vec<f64>,
    /// The Rust with decoding alone.
    pub whole: Vec<f64>,
    /// The Rust's check alone; empty where the tables cannot be read.
    pub check: Vec<f64>,
    pub ours: Vec<f64>,
}

/// The times, or how the answers differ.
pub fn measure(sample: &Sample, effort: Effort) -> Result<Times, String> {
    let case = &sample.case;
    let tables = Tables::of(case);
    let decoded = tables.as_ref().map(Decoded::of);
    let (by_rust, check_first) = timed(|| decoded.as_ref().is_some_and(Decoded::check));
    let (by_us, ours_first) = timed(|| linked::answer(case));
    let slow = check_first > SLOW;
    agree(sample, by_rust, by_us, slow)?;

    let whole = || keep(with_decoding(black_box(case)));
    let ruled = || keep(with_rules(black_box(case)));
    let rules = || keep(rules::refusal(black_box(case)));
    let decoding = || keep(Tables::of(black_box(case)).map(|tables| tables.images().len()));
    let check = || keep(decoded.as_ref().map(Decoded::check));
    let ours = || keep(linked::run(black_box(case)));
    let (first, second): (Side, Side) = if slow { (&decoding, &rules) } else { (&whole, &ruled) };
    let mut sides: Vec<(Side, f64)> = [first, second].map(|side| (side, estimate(None, side))).to_vec();
    sides.push((&ours, estimate(Some(ours_first), &ours)));
    if decoded.is_some() {
        sides.push((&check, estimate(Some(check_first), &check)));
    }
    let mut times = alternate(&sides, effort).into_iter();
    let mut next = || times.next().unwrap_or_default();
    let (mut whole, mut ruled, ours, check) = (next(), next(), next(), next());
    if slow {
        whole.iter_mut().zip(&check).for_each(|(whole, check)| *whole += check);
        ruled.iter_mut().zip(&whole).for_each(|(ruled, whole)| *ruled += whole);
    }
    Ok(Times { ruled, whole, check, ours })
}

/// Compares all answers with the one that the pack was made for.
fn agree(sample: &Sample, by_rust: bool, by_us: Answer, slow: bool) -> Result<(), String> {
    let expected = &sample.expected;
    let accepted = matches!(expected, Answer::Accepted { .. });
    let mut wrong = Vec::new();
    if by_us != *expected {
        wrong.push(format!("this check: {by_us}"));
    }
    if by_rust != accepted || !slow && with_decoding(&sample.case).unwrap_or(false) != accepted {
        wrong.push(format!("the Rust: {}", if accepted { "refused" } else { "accepted" }));
    }
    if !same_rules(sample) {
        wrong.push(format!("the packing rules in Rust: {:?}", rules::refusal(&sample.case)));
    }
    if !slow && sample.named <= MOST_NAMED {
        let oracle = check::answer(&sample.case);
        if oracle != *expected {
            wrong.push(format!("the oracle: {oracle}"));
        }
    }
    match wrong.is_empty() {
        true => Ok(()),
        false => Err(format!("made for: {expected}; {}", wrong.join("; "))),
    }
}

/// Whether the packing rules refuse the pack exactly where that is expected; UTF-8 is not theirs.
fn same_rules(sample: &Sample) -> bool {
    match (&sample.expected, rules::refusal(&sample.case)) {
        (Answer::Refused(numbers), Some(refusal)) => numbers.starts_with(&refusal),
        (Answer::Refused(numbers), None) => numbers[0] > 5,
        (_, refusal) => refusal.is_none(),
    }
}
