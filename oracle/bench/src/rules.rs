//! The packing rules over a pack's records, beside the decoding: what a host in Rust must ask to give the same answer.
use pack::corpus::{Case, Kind};
use pack::layout::{
    numbers, Present, Second, Shape, ACTIONS, ENCLAVE, FEDERATE, REACTORS, SHUTDOWN, TABLES, TIMER,
};
use pack::{PACK_LIMIT, RECORD, TEXT_LIMIT};
use std::ops::Range;
use std::sync::LazyLock;

type Record = [u8; RECORD];

/// What is asked of a table's records, looked up once for each.
struct Asked {
    bits: u8,
    second: Second,
    /// Where the fields end.
    end: usize,
    /// The bytes that bits 0 and 1 of byte 1 govern.
    governed: [Range<usize>; 2],
    identities: usize,
}

const ZEROS: Record = [0; RECORD];

static ASKED: LazyLock<Vec<Asked>> = LazyLock::new(|| (0..TABLES.len() as u8).map(Asked::of).collect());

impl Asked {
    fn of(table: u8) -> Self {
        let (all, table) = (numbers(table), &TABLES[table as usize]);
        let governed = |bit| {
            let mut fields = all.iter().filter(|number| number.field.present == Present::Bit(bit));
            let first = fields.next().map_or(0..0, |number| number.at..number.at + number.bytes);
            first.start..fields.last().map_or(first.end, |number| number.at + number.bytes)
        };
        let is_identity = |shape| matches!(shape, Shape::Identity(_));
        Asked {
            bits: table.bits,
            second: table.second,
            end: all.last().map_or(4, |number| number.at + number.bytes),
            governed: [governed(0), governed(1)],
            identities: all
                .iter()
                .filter(|number| number.part == 0 && is_identity(number.field.shape))
                .count(),
        }
    }
}

/// The refusal's numbers, or none where the pack keeps the rules. UTF-8 is asked where the tables are read.
pub fn refusal(case: &Case) -> Option<[u64; 2]> {
    if !fits(&case.pack) {
        return Some([1, 0]);
    }
    if let Some(text) = [&case.batch, &case.house].iter().position(|text| text.len() > TEXT_LIMIT) {
        return Some([2, text as u64]);
    }
    let kind = case.kind()?;
    let asked = &*ASKED;
    let mut before = None;
    for (at, record) in case.pack.as_chunks::<RECORD>().0.iter().enumerate() {
        if let Some(number) = of_record(asked, kind, before, record, case) {
            return Some([number, at as u64]);
        }
        before = Some(record[0]);
    }
    None
}

/// Whether there are whole records, one at least and not too many.
pub fn fits(pack: &[u8]) -> bool {
    !pack.is_empty() && pack.len() <= PACK_LIMIT && pack.len() % RECORD == 0
}

/// The same for table order and stray bytes alone, 3 and 4, of a pack that fits.
pub fn shape_refusal(pack: &[u8], kind: Kind) -> Option<[u64; 2]> {
    let asked = &*ASKED;
    let mut before = None;
    for (at, record) in pack.as_chunks::<RECORD>().0.iter().enumerate() {
        if let Err(number) = shape_of(asked, kind, before, record) {
            return Some([number, at as u64]);
        }
        before = Some(record[0]);
    }
    None
}

fn of_record(asked: &[Asked], kind: Kind, before: Option<u8>, record: &Record, case: &Case) -> Option<u64> {
    match shape_of(asked, kind, before, record) {
        Err(number) => Some(number),
        Ok(asked) => (!(0..asked.identities).all(|number| inside(record, number, case))).then_some(5),
    }
}

/// What is asked of the record's table, where it is in its place and clean.
#[inline(always)]
fn shape_of<'a>(
    asked: &'a [Asked],
    kind: Kind,
    before: Option<u8>,
    record: &Record,
) -> Result<&'a Asked, u64> {
    let table = asked.get(record[0] as usize).filter(|_| in_place(kind, before, record[0])).ok_or(3_u64)?;
    if clean(table, record) {
        Ok(table)
    } else {
        Err(4)
    }
}

fn in_place(kind: Kind, before: Option<u8>, table: u8) -> bool {
    match (before, kind) {
        (None, Kind::Enclave) => table == ENCLAVE,
        (None, Kind::Federate) => table == FEDERATE,
        (Some(FEDERATE), _) => table == ENCLAVE,
        (Some(_), Kind::Federate) if table == ENCLAVE => true,
        (Some(before), _) => table >= before.max(REACTORS),
    }
}

fn clean(asked: &Asked, record: &Record) -> bool {
    let [table, bits, second, last, ..] = *record;
    let kind = match asked.second {
        Second::Zero => second == 0,
        Second::Kinds(kinds) => second < kinds,
        Second::Bits(bits) => second & !bits == 0,
        Second::Transition => second <= bits >> 1 & 1,
    };
    let absent = |bit: usize| bits >> bit & 1 == 0;
    let zero = |bytes: Range<usize>| record[bytes.clone()] == ZEROS[bytes];
    bits & !asked.bits == 0
        && kind
        && last == 0
        && zero(asked.end..RECORD)
        && (0..2).all(|bit| !absent(bit) || zero(asked.governed[bit].clone()))
        && (table != ACTIONS || timing(second, absent(1), zero(16..24)))
}

/// The period bit is for timers; there is no number for a shutdown, nor for a timer without period.
fn timing(kind: u8, no_period: bool, zero: bool) -> bool {
    match kind {
        TIMER => !no_period || zero,
        kind => no_period && (kind < SHUTDOWN || zero),
    }
}

/// Whether an identity is inside its text.
fn inside(record: &Record, number: usize, case: &Case) -> bool {
    let w =
        |at: usize| u32::from_be_bytes([record[at], record[at + 1], record[at + 2], record[at + 3]]) as usize;
    let text = if record[1] >> number & 1 == 1 { &case.house } else { &case.batch };
    w(4 + 8 * number) + w(8 + 8 * number) <= text.len()
}
