//! Deadlines (table 25), added behind the rows of a case that is made: good ones, some at fault, and packing faults.
//! They have a stream of chance of their own, so that the case is otherwise what it is without them.
use crate::rng::Rng;
use pack::corpus::Case;
use pack::layout::{BINDINGS, DEADLINES, ENCLAVE, REACTIONS};
use pack::row::Row;
use pack::RECORD;

/// Told apart from the stream of the case itself.
const STREAM: u64 = 0x6465_6164_6c69_6e65;
/// Longer packs stay as they are.
const LONGEST: usize = 1 << 20;

/// Reaction and nanoseconds.
type Deadline = [u64; 2];

type Record = [u8; RECORD];

/// A station of a pack, by record numbers.
struct Station {
    start: usize,
    end: usize,
    reactions: u64,
}

/// The stream that decides of one case.
pub fn stream(seed: u64, index: u64) -> Rng {
    Rng::of_case(seed ^ STREAM, index)
}

/// Gives deadlines to a case, where it has a station and is not too long.
pub fn add(rng: &mut Rng, case: &mut Case) {
    let (records, rest) = case.pack.as_chunks::<RECORD>();
    let (mut records, rest) = (records.to_vec(), rest.to_vec());
    let stations = stations(&records);
    if stations.is_empty() || case.pack.len() > LONGEST {
        return;
    }
    let faulty = rng.chance(2, 5).then(|| rng.place(stations.len()));
    if faulty.is_some() && rng.chance(1, 6) {
        alike(rng, &mut records, &stations);
    }
    // From the last one on, so that the record numbers of those before it stay.
    for (place, station) in stations.iter().enumerate().rev() {
        let mut deadlines = good(rng, station.reactions);
        if faulty == Some(place) || faulty.is_some() && rng.chance(1, 3) {
            spoil(rng, &mut deadlines, station.reactions);
        }
        let rows = deadlines.iter().map(|deadline| Row::new(DEADLINES, deadline).record());
        records.splice(station.end..station.end, rows);
    }
    if rng.chance(1, 8) {
        mispack(rng, &mut records);
    }
    case.pack = [records.concat(), rest].concat();
}

fn stations(records: &[Record]) -> Vec<Station> {
    let starts: Vec<usize> = (0..records.len()).filter(|at| records[*at][0] == ENCLAVE).collect();
    let end = |place: usize| starts.get(place + 1).copied().unwrap_or(records.len());
    let station = |place: usize| {
        let (start, end) = (starts[place], end(place));
        let of_reactions = records[start..end].iter().filter(|record| record[0] == REACTIONS);
        Station { start, end, reactions: of_reactions.count() as u64 }
    };
    (0..starts.len()).map(station).collect()
}

/// Gives a station the identity of the one before it, or exchanges the two.
fn alike(rng: &mut Rng, records: &mut [Record], stations: &[Station]) {
    if stations.len() < 2 {
        return;
    }
    let place = rng.between(1, stations.len() as u64 - 1) as usize;
    let [before, this] = [stations[place - 1].start, stations[place].start];
    let (bits, identity) = (records[this][1], records[this][4..12].to_vec());
    let other = records[before];
    records[this][1] = other[1];
    records[this][4..12].copy_from_slice(&other[4..12]);
    if rng.chance(1, 2) {
        records[before][1] = bits;
        records[before][4..12].copy_from_slice(&identity);
    }
}

/// Some of a station's reactions, rising, none of them with zero.
fn good(rng: &mut Rng, reactions: u64) -> Vec<Deadline> {
    let least = if reactions == 0 { 0 } else { rng.below(reactions) };
    let mut deadlines = Vec::new();
    for reaction in 0..reactions {
        if reaction == least || rng.chance(1, 2) {
            deadlines.push([reaction, nanoseconds(rng)]);
        }
    }
    deadlines
}

/// Not zero, and with its ones in every byte now and then.
fn nanoseconds(rng: &mut Rng) -> u64 {
    match rng.below(8) {
        0 => u64::MAX,
        1 => 1 << rng.below(64),
        2 => rng.next() | 1,
        _ => rng.between(1, 3),
    }
}

/// One to three faults, half the time all in one row.
fn spoil(rng: &mut Rng, deadlines: &mut Vec<Deadline>, reactions: u64) {
    while deadlines.len() < rng.between(1, 3) as usize {
        deadlines.push([rng.below(reactions + 1), nanoseconds(rng)]);
    }
    let focus = rng.place(deadlines.len());
    let stay = rng.chance(1, 2);
    for _ in 0..rng.between(1, 3) {
        let at = if stay { focus } else { rng.place(deadlines.len()) };
        let before = at.checked_sub(1).map_or(0, |before| deadlines[before][0]);
        match rng.below(8) {
            0 => deadlines[at][0] = reactions,
            1 => deadlines[at][0] = missing(rng, reactions),
            2 => deadlines[at][0] = before,
            3 => deadlines[at][0] = before.saturating_sub(1),
            4 => deadlines.insert(at, [deadlines[at][0], nanoseconds(rng)]),
            5 => {
                let next = (at + 1) % deadlines.len();
                deadlines.swap(at, next);
            }
            _ => deadlines[at][1] = 0,
        }
    }
}

/// A reaction past the last one, near or far.
fn missing(rng: &mut Rng, reactions: u64) -> u64 {
    let most = u64::from(u32::MAX);
    rng.pick(&[reactions + 1, reactions + 256, 0x1_0000, 1 << 31, most - 1, most])
}

/// A record of table 25 with a stray bit, kind or byte, one out of place, or one of a table after the last.
fn mispack(rng: &mut Rng, records: &mut Vec<Record>) {
    let deadlines: Vec<usize> = (0..records.len()).filter(|at| records[*at][0] == DEADLINES).collect();
    let Some(at) = (!deadlines.is_empty()).then(|| rng.pick(&deadlines)) else {
        return;
    };
    let other = rng.place(records.len() + 1);
    match rng.below(10) {
        0 | 1 => records[at][1] = 1 << rng.below(8),
        2 => records[at][2] = rng.pick(&[1, 2, 128, 255]),
        3 => records[at][3] = rng.between(1, 255) as u8,
        4 => records[at][16] = rng.between(1, 255) as u8,
        5 => records[at][rng.between(16, 63) as usize] = 1,
        6 => records[at][0] = rng.pick(&[DEADLINES + 1, DEADLINES + 2, 64, 255]),
        7 => records[at][0] = rng.pick(&[BINDINGS, REACTIONS, ENCLAVE, 0]),
        8 => records.insert(other, records[at]),
        _ => records.insert(at, records[other.min(at)]),
    }
}
