//! What the check does not look at (document 02, Wish 14): packs that differ only there have one answer.
use crate::{for_each, Done};
use check::{answer, Answer};
use pack::corpus::{Case, Kind};
use pack::layout::{numbers, ACTIONS, DEADLINES, ENCLAVE, REACTIONS, ROUTES, TIMER};
use pack::rng::Rng;
use pack::row::Row;
use pack::{packing, RECORD};
use std::fs::File;
use std::io::{self, BufWriter, Write};

/// How a field that the list names is changed.
#[derive(Clone, Copy)]
enum Change {
    /// The number at this place, to any other.
    Number(usize),
    /// The number at this place, which is not zero, to any other that is not.
    NotZero(usize),
    /// These bits of byte 1.
    Bits(u8),
    /// These bits of byte 2.
    Second(u8),
    /// A timer's period comes or goes.
    Period,
}

/// A field of the list, in document 02's words and order: its table, whether lines may differ in it too, and the rows that have it.
struct Field {
    name: &'static str,
    table: u8,
    in_lines: bool,
    has: fn(&Row) -> bool,
    change: Change,
}

const fn field(name: &'static str, table: u8, has: fn(&Row) -> bool, change: Change) -> Field {
    Field { name, table, in_lines: table != ROUTES, has, change }
}

const LIST: [Field; 16] = [
    field("event capacity", ENCLAVE, every, Change::Number(4)),
    field("payload bytes", ENCLAVE, every, Change::Number(5)),
    field("state bytes", ENCLAVE, every, Change::Number(6)),
    field("scratch bytes", ENCLAVE, every, Change::Number(7)),
    field("an action's minimum delay", ACTIONS, is_standard, Change::Number(3)),
    field("an action's standard domain", ACTIONS, is_standard, Change::Second(1)),
    field("a timer's period", ACTIONS, has_period, Change::Number(3)),
    field("a timer's period bit", ACTIONS, is_timer, Change::Period),
    field("external effect", REACTIONS, every, Change::Bits(1)),
    field("reset or history", REACTIONS, has_effect, Change::Second(1)),
    field("delay of table 15", 15, every, Change::Number(1)),
    field("delay of table 19", 19, every, Change::Number(1)),
    field("delay of table 20", 20, every, Change::Number(1)),
    field("a deadline that is not zero", DEADLINES, is_not_zero, Change::NotZero(1)),
    field("a route's domain", ROUTES, every, Change::Second(2)),
    field("a route's delay", ROUTES, every, Change::Number(3)),
];

fn every(_: &Row) -> bool {
    true
}

fn is_standard(action: &Row) -> bool {
    action.second < TIMER
}

fn is_timer(action: &Row) -> bool {
    action.second == TIMER
}

fn has_period(action: &Row) -> bool {
    is_timer(action) && action.bits & 2 != 0
}

fn is_not_zero(deadline: &Row) -> bool {
    deadline.numbers[1] != 0
}

fn has_effect(reaction: &Row) -> bool {
    reaction.bits & 2 != 0
}

/// A number of so many bytes, often a small one or one at the edge.
fn any(rng: &mut Rng, bytes: usize) -> u64 {
    let most = u64::MAX >> (64 - 8 * bytes);
    match rng.below(6) {
        0 => rng.below(4),
        1 => most - rng.below(2),
        _ => rng.next() & most,
    }
}

/// A number of so many bytes, from `least` on, other than the one that stands.
fn other(rng: &mut Rng, bytes: usize, least: u64, than: u64) -> u64 {
    loop {
        let number = any(rng, bytes);
        if number >= least && number != than {
            return number;
        }
    }
}

fn change_number(rng: &mut Rng, row: &mut Row, at: usize, least: u64) {
    row.numbers[at] = other(rng, numbers(row.table)[at].bytes, least, row.numbers[at]);
}

impl Change {
    fn make(self, rng: &mut Rng, row: &mut Row) {
        match self {
            Change::Number(at) => change_number(rng, row, at, 0),
            Change::NotZero(at) => change_number(rng, row, at, 1),
            Change::Bits(bits) => row.bits ^= bits,
            Change::Second(bits) => row.second ^= bits,
            Change::Period => {
                row.bits ^= 2;
                row.numbers[3] = if row.bits & 2 != 0 { any(rng, 8) } else { 0 };
            }
        }
    }
}

/// Each field of the list that some row of the case has: the record and the field's place in the list.
fn places(case: &Case, kind: Kind) -> Vec<(usize, usize)> {
    let mut places = Vec::new();
    for (record, bytes) in case.pack.chunks(RECORD).enumerate() {
        let row = Row::read(bytes);
        for (at, field) in LIST.iter().enumerate() {
            let differs = field.in_lines || kind == Kind::Enclave;
            if field.table == row.table && differs && (field.has)(&row) {
                places.push((record, at));
            }
        }
    }
    places
}

/// The case with one or more of these places changed: one, a few or all.
fn changed(rng: &mut Rng, case: &Case, places: &[(usize, usize)], counts: &mut [u64]) -> Case {
    let must = rng.place(places.len());
    let times = rng.pick(&[0, 1, 4, 8]);
    let mut pack = case.pack.clone();
    for (number, &(record, at)) in places.iter().enumerate() {
        let bytes = &mut pack[record * RECORD..][..RECORD];
        let mut row = Row::read(bytes);
        if (number == must || rng.chance(times, 8)) && (LIST[at].has)(&row) {
            LIST[at].change.make(rng, &mut row);
            bytes.copy_from_slice(&row.record());
            counts[at] += 1;
        }
    }
    Case { pack, ..case.clone() }
}

/// What was tried: pairs by their answer, and how often each field was changed, in stations and in lines.
#[derive(Default)]
struct Tried {
    accepted: [u64; 2],
    refused: [u64; 2],
    fields: [[u64; LIST.len()]; 2],
}

/// Writes the corpus with one or more of these fields changed in each case that passes packing and has one; the others as they are.
/// False where an answer differs or a field was never changed.
pub fn print(corpus: &str, out: &str) -> Done {
    let mut to = BufWriter::new(File::create(out)?);
    let mut tried = Tried::default();
    let mut same = true;
    let ended = for_each(corpus, |number, case| {
        let kind = case.kind().filter(|kind| packing::check(&case, *kind).is_ok());
        let places = kind.map_or_else(Vec::new, |kind| places(&case, kind));
        if places.is_empty() {
            return case.write(&mut to);
        }
        let line = usize::from(kind == Some(Kind::Federate));
        let mut rng = Rng::of_case(14, number);
        let other = changed(&mut rng, &case, &places, &mut tried.fields[line]);
        let answers = (answer(&case), answer(&other));
        if answers.0 != answers.1 || other.pack == case.pack {
            same = false;
            println!("case {number}: {}, and with other unlooked fields {}", answers.0, answers.1);
        }
        match answers.0 {
            Answer::Accepted { .. } => tried.accepted[line] += 1,
            _ => tried.refused[line] += 1,
        }
        other.write(&mut to)
    })?;
    if let Some(line) = ended {
        return Err(io::Error::other(format!("the corpus ends with `{line}`")));
    }
    to.flush()?;
    Ok(tried.print() && same)
}

impl Tried {
    /// One line a count, blank between; true where each field was changed.
    fn print(&self) -> bool {
        let mut all = true;
        for (line, kind) in ["station", "line"].iter().enumerate() {
            println!("{}\tpairs\taccepted, {kind}", self.accepted[line]);
            println!("{}\tpairs\trefused, {kind}", self.refused[line]);
            for (field, count) in LIST.iter().zip(self.fields[line]) {
                if field.in_lines || *kind == "station" {
                    all &= count > 0;
                    println!("{count}\tchanged\t{}, {kind}", field.name);
                }
            }
        }
        all
    }
}
