//! Records of lines that are tried and changed through the Rust crate, beside the oracle's reference: answers and memory, up to packs of the largest size,
//! which no corpus has since its lines show the pack.
use check::change;
use image_check::{change_record, preview_record, CHANGE_STACK, STACK};
use pack::corpus::{Case, CHANGE, PREVIEW};
use pack::layout::{BINDINGS, ENCLAVE, FEDERATE, PORTS, REACTORS, ROUTES, SCOPES};
use pack::row::Row;
use pack::{PACK_LIMIT, RECORD};
use std::collections::BTreeSet;

/// The batch text of all packs: names of the line, its station, two bindings and a boundary.
const TEXT: &[u8] = b"fabcd";

/// Entries that name a scope, here enough of them for any size: of more scopes boomerang's own check takes seconds.
const DESCENDANTS: u8 = 13;

/// A line of so many records: one station, with two scopes, descendants, a port, a route and two bindings.
fn rows(records: usize) -> Vec<Row> {
    let mut rows = vec![
        Row::new(FEDERATE, &[0, 1, 0, 1, 0, 1, 0, 1]),
        Row::new(ENCLAVE, &[1, 1, 1, 0, 0, 0, 0, 0]),
        Row::new(REACTORS, &[0; 8]),
        Row::new(PORTS, &[1, 0, 0, 0]),
        Row::new(SCOPES, &[0; 15]),
        Row::new(SCOPES, &[0; 15]).bits(1),
    ];
    rows.resize(records - 3, Row::new(DESCENDANTS, &[0]));
    rows.push(Row::new(ROUTES, &[4, 1, 0, 5]));
    rows.push(Row::new(BINDINGS, &[2, 1]));
    rows.push(Row::new(BINDINGS, &[3, 1]).second(2));
    rows
}

/// The number of a record, and a row for it.
type Change = (u32, Vec<u8>);

/// A record's bytes with one of its numbers changed.
fn with(row: &Row, at: usize, value: u64) -> Vec<u8> {
    let mut row = row.clone();
    row.numbers[at] = value;
    row.record().to_vec()
}

/// Accepted ones of records from the first to the last, and refused ones.
fn changes(rows: &[Row]) -> Vec<Change> {
    let last = rows.len() - 1;
    let (route, middle) = (last - 2, last / 2);
    let own = |at: usize| rows[at].record().to_vec();
    let mut stray = own(middle);
    stray[3] = 1;
    let all = [
        (0, with(&rows[0], 6, 9)),
        (1, with(&rows[1], 2, 7)),
        (middle, with(&rows[middle], 0, 1)),
        (route, with(&rows[route], 3, u64::MAX)),
        (last, own(last)),
        (1, own(1)[..63].to_vec()),
        (1, [own(1), vec![0]].concat()),
        (last + 1, own(last)),
        (1 << 26, own(0)),
        (u32::MAX as usize, own(last)),
        (middle, own(last)),
        (middle, stray),
        (route, with(&rows[route], 0, 5)),
        (middle, with(&rows[middle], 0, 2)),
        (0, with(&rows[0], 1, 0)),
        (1, with(&rows[1], 2, 0)),
        (last, own(last - 1)),
    ];
    all.map(|(number, row)| (number as u32, row)).into()
}

/// What all changes together are refused for.
const REFUSALS: [u64; 9] = [4, 5, 12, 19, 23, 24, 35, 36, 37];

/// What a preview and a change answer, and the pack after each.
#[derive(PartialEq)]
struct Asked {
    answers: [String; 2],
    packs: [Vec<u8>; 2],
}

/// By the library, on a thread with a stack of just so many bytes.
fn asked(stack: usize, pack: &[u8], (number, row): &Change) -> Asked {
    let (number, row, tried) = (*number, row.clone(), pack.to_vec());
    let calls = move || {
        let mut changed = tried.clone();
        let first = preview_record(&tried, TEXT, b"", number, &row);
        let second = change_record(&mut changed, TEXT, b"", number, &row);
        Asked { answers: [first, second].map(|answer| answer.to_string()), packs: [tried, changed] }
    };
    std::thread::Builder::new().stack_size(stack).spawn(calls).unwrap().join().unwrap()
}

/// By the oracle.
fn reference(pack: &[u8], (number, row): &Change) -> Asked {
    let [tried, changed] = [PREVIEW, CHANGE].map(|kind| {
        let case = Case { kind, pack: pack.to_vec(), batch: TEXT.to_vec(), ..Case::default() };
        change::of(&case, *number, row)
    });
    Asked { answers: [&tried, &changed].map(|one| one.answer.to_string()), packs: [tried.pack, changed.pack] }
}

/// All changes of a line of so many records, and of that line with too few state slots.
fn compare(records: usize, stack: usize) {
    let good = rows(records);
    let mut refused = good.clone();
    refused[1].numbers[2] = 0;
    let mut met = BTreeSet::new();
    for rows in [&good, &refused] {
        let pack = pack::row::pack(rows);
        assert_eq!(pack.len(), records * RECORD);
        for change in changes(&good) {
            let (ours, theirs) = (asked(stack, &pack, &change), reference(&pack, &change));
            assert_eq!(ours.answers, theirs.answers, "record {}", change.0);
            assert!(ours == theirs, "record {}: another pack after it", change.0);
            let mut words = ours.answers[1].split(' ');
            if words.next() == Some("refused") {
                met.insert(words.next().unwrap().parse().unwrap());
            }
        }
    }
    assert_eq!(met, REFUSALS.into());
}

/// The largest pack that needs no more stack than a check.
#[test]
fn small() {
    compare(1024, STACK);
}

#[test]
fn one_record_more() {
    compare(1025, CHANGE_STACK);
}

#[test]
fn full_size() {
    compare(PACK_LIMIT / RECORD, CHANGE_STACK);
}
