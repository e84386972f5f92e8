//! The families of packs and their sizes.
use crate::sample::Sample;
use crate::{deadlines, long, refused, routes, stations, wide};

pub struct Family {
    pub name: &'static str,
    pub about: &'static str,
    /// In records of 64 bytes, rising.
    pub sizes: &'static [usize],
    /// A pack of at most so many records.
    pub make: fn(usize) -> Sample,
}

/// Up to the pack's limit.
const SIZES: &[usize] = &[35, 256, 1024, 4096, 16_384, 65_536];
const FROM_FOUR: &[usize] = &[4, 16, 256, 4096, 16_384, 65_536];

pub const FAMILIES: [Family; 17] = [
    family("smallest", "a line without stations, the smallest station, that in a line", &[1, 4, 5], smallest),
    family(
        "wide",
        "one station, a reactor and two scopes to each unit of actions, ports, ..",
        SIZES,
        wide::reactors,
    ),
    family("wide-one-reactor", "the same with one reactor and two scopes in all", SIZES, wide::units),
    family("chain-to-first", "scope i below scope i - 1", FROM_FOUR, stations::chain_to_first),
    family("chain-to-last", "scope i below scope i + 1", FROM_FOUR, stations::chain_to_last),
    family(
        "stations",
        "the smallest station, many in a line",
        &[1, 16, 256, 4096, 16_384, 65_536],
        stations::line,
    ),
    family("routes-two", "all paired across two stations", SIZES, routes::across_two),
    family("routes-many", "all paired across stations of ten routes", SIZES, routes::across_many),
    family("deadlines", "one station of reactions, each with a deadline", SIZES, deadlines::station),
    family("long-bindings", "beginnings of one ASCII text", FROM_FOUR, long::ascii_bindings),
    family("long-mixed", "beginnings of one text of one to four bytes a scalar", MIXED, long::mixed_bindings),
    family(
        "long-boundaries",
        "beginnings of one ASCII text, paired",
        &[15, 17, 29, 77, 141, 269],
        long::boundaries,
    ),
    family("refused-first-record", "packing, at once", SIZES, refused::first_record),
    family("refused-first-row", "reactor 0, after packing", SIZES, refused::first_row),
    family("refused-last-record", "packing, at the last record", SIZES, refused::last_record),
    family("refused-missing-row", "the last route's port", SIZES, refused::missing_row),
    family("refused-last-row", "the last binding", SIZES, refused::last_row),
];

/// As many beginnings as a text of scalars of several bytes has.
const MIXED: &[usize] = &[4, 16, 256, 4096, 8192, 16_384];

const fn family(
    name: &'static str,
    about: &'static str,
    sizes: &'static [usize],
    make: fn(usize) -> Sample,
) -> Family {
    Family { name, about, sizes, make }
}

fn smallest(records: usize) -> Sample {
    match records {
        4 => stations::alone(),
        _ => stations::line(records),
    }
}
