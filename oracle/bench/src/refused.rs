//! Wide stations with one fault: in the first record or in the last, in packing or in a row.
use crate::sample::Sample;
use crate::wide;
use check::Answer;
use pack::layout::{BINDINGS, PORTS, ROUTES};
use pack::RECORD;

/// Sets the W at this byte of a record.
fn set(sample: &mut Sample, record: usize, at: usize, value: u32) {
    let at = record * RECORD + at;
    sample.case.pack[at..at + 4].copy_from_slice(&value.to_be_bytes());
}

fn last(sample: &Sample) -> usize {
    sample.case.pack.len() / RECORD - 1
}

/// The rows of a table.
fn rows(sample: &Sample, table: u8) -> usize {
    sample.case.pack.chunks(RECORD).filter(|record| record[0] == table).count()
}

/// The station's identity is outside its text.
pub fn first_record(records: usize) -> Sample {
    let mut sample = wide::units(records);
    set(&mut sample, 0, 8, u32::MAX);
    sample.expected = Answer::Refused(vec![5, 0]);
    sample
}

/// Reactor 0 has a state slot at the bound.
pub fn first_row(records: usize) -> Sample {
    let mut sample = wide::units(records);
    set(&mut sample, 1, 8, 1);
    sample.expected = Answer::Refused(vec![23, 2, 0, 1, 1]);
    sample
}

/// The last binding's identity is not UTF-8.
pub fn last_record(records: usize) -> Sample {
    let mut sample = wide::units(records);
    sample.case.house = vec![0xff];
    let record = last(&sample);
    sample.case.pack[record * RECORD + 1] = 1;
    set(&mut sample, record, 4, 0);
    set(&mut sample, record, 8, 1);
    sample.expected = Answer::Refused(vec![6, record as u64]);
    sample
}

/// The last route's port is the one after the last.
pub fn missing_row(records: usize) -> Sample {
    let mut sample = wide::units(records);
    let [routes, ports, bindings] = [ROUTES, PORTS, BINDINGS].map(|table| rows(&sample, table));
    set(&mut sample, records - 1 - bindings, 12, ports as u32);
    let [index, ports] = [routes - 1, ports].map(|number| number as u64);
    sample.expected = Answer::Refused(vec![12, ROUTES.into(), index, 32, PORTS.into(), ports, ports]);
    sample
}

/// The last binding has the identity of the one before.
pub fn last_row(records: usize) -> Sample {
    let mut sample = wide::units(records);
    let record = last(&sample);
    let id = record * RECORD + 4;
    let before: Vec<u8> = sample.case.pack[id - RECORD..id - RECORD + 8].to_vec();
    sample.case.pack[id..id + 8].copy_from_slice(&before);
    let index = rows(&sample, BINDINGS) as u64 - 1;
    let start = u32::from_be_bytes([before[0], before[1], before[2], before[3]]);
    sample.expected = Answer::Refused(vec![21, 6, index, 0, start.into(), 4]);
    sample
}
