//! Where a refusal stands in the order of a line's checks. A station alone is a line's only one here.

/// A place in that order; places compare as they follow one another.
#[derive(Clone, Copy, Debug, PartialEq, Eq, PartialOrd, Ord)]
pub enum Place {
    /// The line's own record.
    Head,
    /// A station, by its place in the line.
    Station(usize, Part),
    /// The pairs of routes.
    Pairs,
}

/// A part of what is checked of a station of a line.
#[derive(Clone, Copy, Debug, PartialEq, Eq, PartialOrd, Ord)]
pub enum Part {
    /// All that the Rust checks of it alone.
    Rust,
    Deadlines,
    /// Its identity against the one of the station before.
    Order,
}

/// Where a refusal by the Rust stands, whose error does not name the station. `start` is that of the line's span;
/// `alone` gives the first station that the Rust refuses by itself.
pub fn of_rust(numbers: &[u64], start: u64, alone: impl FnOnce() -> Option<usize>) -> Place {
    match *numbers {
        [19, 1..=3, ..] | [13 | 17, 0, ..] => Place::Head,
        [20 | 21, 4, index, ..] => Place::Station((index - start) as usize, Part::Order),
        _ => alone().map_or(Place::Pairs, |station| Place::Station(station, Part::Rust)),
    }
}
