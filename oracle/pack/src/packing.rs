//! The packing rules of documents 01 and 02: refusals 1 to 6.
use crate::corpus::{Case, Kind};
use crate::layout::{numbers, Second, ACTIONS, ENCLAVE, FEDERATE, REACTORS, TABLES, TIMER};
use crate::row::Row;
use crate::{utf8, PACK_LIMIT, RECORD, TEXT_LIMIT};

/// A packing refusal with its number, and for statistics the table and the reason.
#[derive(Clone, Debug)]
pub struct Fault {
    pub refusal: u64,
    pub number: Option<u64>,
    pub table: Option<u8>,
    pub why: &'static str,
}

pub type Checked = Result<(), Fault>;

/// Lengths, texts, then record by record.
pub fn check(case: &Case, kind: Kind) -> Checked {
    check_length(case.pack.len())?;
    check_text(&case.batch, 0, "batch")?;
    check_text(&case.house, 1, "house")?;
    check_records(&case.pack, kind, |record| check_identities(case, record))
}

/// Record by record refusals 3 and 4 alone: no text is asked.
pub fn check_shapes(pack: &[u8], kind: Kind) -> Checked {
    check_records(pack, kind, |_| Ok(()))
}

/// Record by record refusals 3 and 4, and then what else is asked of the record.
fn check_records(pack: &[u8], kind: Kind, more: impl Fn(&[u8]) -> Result<(), Reason>) -> Checked {
    let mut before = None;
    for (index, record) in pack.chunks(RECORD).enumerate() {
        let refuse = |(refusal, why)| Fault {
            refusal,
            number: Some(index as u64),
            table: TABLES.get(record[0] as usize).map(|_| record[0]),
            why,
        };
        check_place(kind, before, record[0]).map_err(refuse)?;
        check_strays(record).map_err(refuse)?;
        more(record).map_err(refuse)?;
        before = Some(record[0]);
    }
    Ok(())
}

/// Refusal 1.
pub fn check_length(length: usize) -> Checked {
    let why = if length == 0 {
        "empty"
    } else if length > PACK_LIMIT {
        "over the limit"
    } else if length % RECORD != 0 {
        "no multiple of 64"
    } else {
        return Ok(());
    };
    Err(Fault { refusal: 1, number: None, table: None, why })
}

fn check_text(text: &[u8], number: u64, why: &'static str) -> Checked {
    if text.len() > TEXT_LIMIT {
        return Err(Fault { refusal: 2, number: Some(number), table: None, why });
    }
    Ok(())
}

type Reason = (u64, &'static str);

/// Refusal 3: the table number after the one before it.
fn check_place(kind: Kind, before: Option<u8>, table: u8) -> Result<(), Reason> {
    if table as usize >= TABLES.len() {
        return Err((3, "unknown table"));
    }
    let first = match kind {
        Kind::Enclave => ENCLAVE,
        Kind::Federate => FEDERATE,
    };
    let in_place = match before {
        None => table == first,
        Some(FEDERATE) => table == ENCLAVE,
        Some(_) if table == ENCLAVE => kind == Kind::Federate,
        Some(before) => table >= before.max(REACTORS),
    };
    if in_place {
        Ok(())
    } else {
        Err((3, if before.is_none() { "wrong first record" } else { "out of place" }))
    }
}

/// Refusal 4: bits, kinds and bytes that mean nothing, and absent fields.
fn check_strays(record: &[u8]) -> Result<(), Reason> {
    let row = Row::read(record);
    let table = &TABLES[row.table as usize];
    if row.bits & !table.bits != 0 {
        return Err((4, "stray bit"));
    }
    check_second(&row, table.second)?;
    if row.table == ACTIONS && row.bits & 2 != 0 && row.second != TIMER {
        return Err((4, "period bit on no timer"));
    }
    if record[3] != 0 {
        return Err((4, "byte 3"));
    }
    if (0..row.numbers.len()).any(|number| !row.present(number) && row.numbers[number] != 0) {
        return Err((4, "absent field"));
    }
    let end = numbers(row.table).last().map_or(4, |number| number.at + number.bytes);
    if record[end..].iter().any(|byte| *byte != 0) {
        return Err((4, "stray byte"));
    }
    Ok(())
}

fn check_second(row: &Row, second: Second) -> Result<(), Reason> {
    let (good, why) = match second {
        Second::Zero => (row.second == 0, "byte 2"),
        Second::Kinds(kinds) => (row.second < kinds, "kind"),
        Second::Bits(bits) => (row.second & !bits == 0, "stray bit of byte 2"),
        Second::Transition if row.second > 1 => (false, "kind"),
        Second::Transition => (row.second == 0 || row.bits & 2 != 0, "history without effect"),
    };
    if good {
        Ok(())
    } else {
        Err((4, why))
    }
}

/// Refusals 5 and 6, identity by identity.
fn check_identities(case: &Case, record: &[u8]) -> Result<(), Reason> {
    let row = Row::read(record);
    for (at, house) in row.identities() {
        let text = case.part(house, row.numbers[at], row.numbers[at + 1]);
        let text = text.ok_or((5, "outside its text"))?;
        utf8::check(text).map_err(|why| (6, why))?;
    }
    Ok(())
}
