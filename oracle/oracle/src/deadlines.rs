//! What there is to say of a case's deadlines (table 25): whether it is accepted, and which of several faults comes first.
use check::{faults, rows, stations, Deadlines, Fault, Faults, Part, Place};
use pack::corpus::{Case, Kind};
use pack::layout::DEADLINES;
use pack::row::Row;
use pack::{packing, RECORD};
use std::collections::BTreeSet;

/// All cases with a record of table 25, packed well or not.
const WITH: &str = "cases with deadlines";
const BADLY_PACKED: &str = "refused by the packing rules";

/// The refusals of a row of deadlines, in the order of its checks.
const CHECKS: [u64; 4] = [12, 16, 15, 39];

const IN_ONE_ROW: [[u64; 2]; 3] = [[12, 39], [16, 39], [15, 39]];

const OF_CASES: [&str; 23] = [
    WITH,
    BADLY_PACKED,
    "accepted, station",
    "accepted, line",
    "the Rust alone refuses",
    "a deadline alone at fault, station",
    "a deadline alone at fault, line",
    "12 where there is no reaction",
    "12 to the row after the last reaction",
    "12 to a row further on",
    "after the line's own record",
    "after another fault of its station",
    "after a fault of an earlier station",
    "after 20 of an earlier station",
    "after 21 of an earlier station",
    "before 20 of its station",
    "before 21 of its station",
    "before 20 of a later station",
    "before 21 of a later station",
    "before a fault of a later station",
    "before a deadline of a later station",
    "before 27 of the pairs",
    "before 28 of the pairs",
];

/// All that can be said of one case or another.
pub fn all() -> Vec<String> {
    let mut all: Vec<String> = OF_CASES.map(String::from).into();
    all.extend(IN_ONE_ROW.map(in_one_row));
    all.extend(CHECKS.iter().flat_map(|first| CHECKS.map(|later| in_two_rows(*first, later))));
    all
}

fn in_one_row([first, second]: [u64; 2]) -> String {
    format!("{first} before {second} of the same row")
}

fn in_two_rows(first: u64, later: u64) -> String {
    format!("{first} before {later} of a later row")
}

/// Whether a pack has a record of this table.
pub fn has(case: &Case, table: u8) -> bool {
    case.pack.chunks(RECORD).any(|record| record[0] == table)
}

/// What is to be said of a case with deadlines; nothing for others.
pub fn of(case: &Case) -> Vec<String> {
    let Some(kind) = case.kind().filter(|_| has(case, DEADLINES)) else {
        return vec![];
    };
    let mut said = vec![WITH.to_string()];
    if packing::check(case, kind).is_err() {
        said.push(BADLY_PACKED.into());
        return said;
    }
    let rows = rows(case);
    let faults = faults(case, kind);
    said.push(order(kind, &faults));
    if let Faults { rust, deadlines: Some(fault) } = faults {
        if rust.is_none_or(|rust| rust.place > fault.place) {
            said.extend(among_deadlines(&stations(&rows), station(&fault)));
        }
    }
    said
}

/// The station of a deadline fault.
fn station(fault: &Fault) -> usize {
    match fault.place {
        Place::Station(station, _) => station,
        _ => unreachable!("deadlines are a station's"),
    }
}

/// How a fault of the Rust and one of the deadlines stand to one another.
fn order(kind: Kind, faults: &Faults) -> String {
    let (rust, deadlines) = (faults.rust.as_ref(), faults.deadlines.as_ref());
    let kind = if kind == Kind::Enclave { "station" } else { "line" };
    let (rust, deadlines) = match (rust, deadlines) {
        (None, None) => return format!("accepted, {kind}"),
        (Some(_), None) => return "the Rust alone refuses".into(),
        (None, Some(_)) => return format!("a deadline alone at fault, {kind}"),
        (Some(rust), Some(deadlines)) => (rust, deadlines),
    };
    let station = station(deadlines);
    let (side, which) =
        if rust.place < deadlines.place { ("after", "an earlier") } else { ("before", "a later") };
    let number = rust.numbers[0];
    match rust.place {
        Place::Head => "after the line's own record".into(),
        Place::Pairs => format!("before {number} of the pairs"),
        Place::Station(other, Part::Order) if other == station => format!("before {number} of its station"),
        Place::Station(other, _) if other == station => "after another fault of its station".into(),
        Place::Station(_, Part::Order) => format!("{side} {number} of {which} station"),
        Place::Station(..) => format!("{side} a fault of {which} station"),
    }
}

/// What else is at fault in the row that decides, in later rows and in later stations; how far a 12 goes.
fn among_deadlines(stations: &[&[Row]], station: usize) -> Vec<String> {
    let deadlines = Deadlines::of(stations[station]);
    let mut rows = (0..deadlines.count()).map(|index| deadlines.faults(index)).filter(|row| !row.is_empty());
    let first = rows.next().expect("a fault");
    let number = first[0][0];
    let mut said = Vec::new();
    if let [12, _, _, _, _, reaction, reactions] = first[0][..] {
        said.push(how_far(reaction, reactions).into());
    }
    said.extend(first.get(1).map(|second| in_one_row([number, second[0]])));
    let later: BTreeSet<u64> = rows.flatten().map(|refusal| refusal[0]).collect();
    said.extend(later.into_iter().map(|later| in_two_rows(number, later)));
    if stations[station + 1..].iter().any(|rows| Deadlines::of(rows).refusal().is_some()) {
        said.push("before a deadline of a later station".into());
    }
    said
}

fn how_far(reaction: u64, reactions: u64) -> &'static str {
    match reaction - reactions {
        _ if reactions == 0 => "12 where there is no reaction",
        0 => "12 to the row after the last reaction",
        _ => "12 to a row further on",
    }
}
