//! Numbers as the table shows them.
use crate::stats::Spread;

/// Thousands parted by commas.
pub fn count(number: u64) -> String {
    let digits = number.to_string();
    let mut shown = String::new();
    for (at, digit) in digits.chars().enumerate() {
        if at > 0 && (digits.len() - at) % 3 == 0 {
            shown.push(',');
        }
        shown.push(digit);
    }
    shown
}

/// Three digits, or four places where it is small.
fn decimal(value: f64) -> String {
    let places = match value {
        100.0.. => 0,
        10.0.. => 1,
        0.1.. => 2,
        _ => 4,
    };
    format!("{value:.places$}")
}

pub fn time(nanoseconds: f64) -> String {
    let units = [(1e9, "s "), (1e6, "ms"), (1e3, "us")];
    let (unit, name) = units.into_iter().find(|(unit, _)| nanoseconds >= *unit).unwrap_or((1.0, "ns"));
    format!("{} {name}", decimal(nanoseconds / unit))
}

/// The median, and the quartiles beside it.
pub fn ratio(spread: &Spread) -> String {
    let [low, median, high] = spread.0.map(decimal);
    format!("{median} ({low}-{high})")
}
