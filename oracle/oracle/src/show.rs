//! A case record by record in words, with its answer.
use crate::{one, sites, Done};
use check::{answer, Answer};
use pack::corpus::{Case, Kind, NIGHT, CHANGE, FIRST_TREE, NEXT_TREE, TALLY};
use pack::layout::{numbers, Shape, ACTIONS, BINDINGS, REACTIONS, ROUTES, TABLES};
use pack::names::{direction_name, field_name, kind_name, refusal_of, table_name, Value};
use pack::row::Row;
use pack::tally::{self, Step};
use pack::tree;
use pack::RECORD;
use std::collections::BTreeMap;

/// Records shown of a long pack.
const MOST: usize = 400;

pub fn print(corpus: &str, number: &str) -> Done {
    let case = one(corpus, number)?;
    if case.kind == TALLY {
        show_tally(number, &case);
        return Ok(true);
    }
    if matches!(case.kind, FIRST_TREE | NEXT_TREE) {
        show_tree(number, &case);
        return Ok(true);
    }
    let conversion = case.conversion();
    let kind = match case.kind().or(conversion.map(|(kind, _)| kind)) {
        _ if case.kind == NIGHT => "line (federate) at night",
        Some(Kind::Federate) => "line (federate)",
        _ => "station (enclave)",
    };
    let asked = match conversion {
        Some((_, output)) => format!(", to be converted into {} bytes", output.len()),
        None => case.mode().map_or(String::new(), |mode| format!(", the owner of mode {mode}")),
    };
    let asked = case.change().map_or(asked, |(number, row)| changed(&case, number, row));
    let asked = case.reaction().map_or(asked, |(reaction, lent)| {
        format!(", kind {}: what reaction {reaction} reaches, {} bytes lent", case.kind, lent.len())
    });
    println!("case {number}: {kind}{asked}, {} bytes of pack", case.pack.len());
    println!("batch, {} bytes: {}", case.batch.len(), shown(&case.batch));
    println!("house, {} bytes: {}", case.house.len(), shown(&case.house));
    records(&case);
    let answer = answer(&case);
    println!("answer: {answer}");
    let refusal = match &answer {
        Answer::Change(changed) => &*changed.answer,
        other => other,
    };
    if let Answer::Refused(numbers) = refusal {
        println!("  {}", in_words(numbers));
    }
    if let Some(site) = sites::of(&case, &answer) {
        println!("  site: {site}");
    }
    Ok(true)
}

/// Which record is changed or tried, and the row.
fn changed(case: &Case, number: u32, row: &[u8]) -> String {
    let known = row.len() == RECORD && TABLES.len() > row[0] as usize;
    let shown = if known { words(case, row) } else { format!("{row:02x?}") };
    let done = if case.kind == CHANGE { "changed" } else { "tried" };
    format!(", record {number} {done} by {} bytes: {shown};", row.len())
}

/// A tally by its numbers, its steps and what each of them gave.
fn show_tally(number: &str, case: &Case) {
    let ([answers, accepted, links], steps) = tally::read(&case.rest);
    println!("case {number}: a tally of {answers} answers, {accepted} accepted, {links} links");
    for step in steps {
        match step {
            Step::Refused => println!("  a refused answer comes in"),
            Step::Accepted(links) => println!("  an accepted one with {links} links"),
            Step::Share => println!("  the share is asked"),
            Step::Mean => println!("  the mean is asked"),
        }
    }
    println!("answer: {}", answer(case));
}

/// What is asked of scope trees, and the answer with the lent bytes.
fn show_tree(number: &str, case: &Case) {
    let (count, lent) = tree::read(&case.rest);
    let wanted = if case.kind == FIRST_TREE { "the first tree" } else { "the next tree" };
    println!("case {number}: {wanted} of {count} scopes, {} bytes lent: {}", lent.len(), shown(lent));
    println!("answer: {}", answer(case));
}

fn records(case: &Case) {
    let mut rows = BTreeMap::new();
    for (index, record) in case.pack.chunks(RECORD).enumerate().take(MOST) {
        if record.len() < RECORD || record[0] as usize >= TABLES.len() {
            println!("record {index}: {record:02x?}");
            continue;
        }
        if record[0] == 1 {
            rows.clear();
        }
        let row: &mut usize = rows.entry(record[0]).or_default();
        println!("record {index}: {}[{row}] {}", TABLES[record[0] as usize].name, words(case, record));
        *row += 1;
    }
    if case.pack.len() > MOST * RECORD {
        println!(".. {} records in all", case.pack.len().div_ceil(RECORD));
    }
}

/// A record's bits, kind and fields.
fn words(case: &Case, record: &[u8]) -> String {
    let row = Row::read(record);
    let mut words = kinds(&row);
    if words.is_empty() && row.second != 0
        || row.bits & !TABLES[row.table as usize].bits != 0
        || record[3] != 0
    {
        words.push(format!("bytes 1 to 3 {:02x?}", &record[1..4]));
    }
    let all = numbers(row.table);
    let mut at = 0;
    while at < all.len() {
        let field = all[at].field;
        let (first, second) = (row.numbers[at], row.numbers.get(at + 1).copied().unwrap_or(0));
        let value = match field.shape {
            Shape::W | Shape::D => first.to_string(),
            Shape::Range | Shape::Span => format!("{first}+{second}"),
            Shape::Identity(bit) => identity(case, row.bits >> bit & 1, first, second),
        };
        if row.present(at) || first != 0 {
            words.push(format!("{} {value}", field.name));
        }
        at += if matches!(field.shape, Shape::W | Shape::D) { 1 } else { 2 };
    }
    let end = all.last().map_or(4, |number| number.at + number.bytes);
    if record[end..].iter().any(|byte| *byte != 0) {
        words.push(format!("stray bytes from {end}: {:02x?}", &record[end..]));
    }
    words.join(", ")
}

/// What byte 2 says, and the bits of byte 1 that no field shows.
fn kinds(row: &Row) -> Vec<String> {
    let second = row.second as usize;
    let one_of = |names: &[&str]| names.get(second).map_or(format!("kind {second}"), |name| name.to_string());
    match row.table {
        ACTIONS => vec![one_of(&["standard logical", "standard physical", "timer", "shutdown"])],
        BINDINGS => vec![one_of(&["state initializer", "reaction", "port", "action"])],
        ROUTES => {
            vec![one_of(&["inbound logical", "outbound logical", "inbound physical", "outbound physical"])]
        }
        REACTIONS => {
            let external = if row.bits & 1 == 1 { "external effect" } else { "no external effect" };
            let mut words = vec![external.to_string()];
            if row.bits & 2 != 0 || second != 0 {
                words.push(one_of(&["reset", "history"]));
            }
            words
        }
        _ => vec![],
    }
}

fn identity(case: &Case, house: u8, start: u64, length: u64) -> String {
    let text = ["batch", "house"][house as usize];
    let part = case.part(house, start, length).map_or("outside".into(), shown);
    format!("{text} {start}+{length} {part}")
}

/// Bytes as text, with what is not plain ASCII escaped; long ones cut.
fn shown(bytes: &[u8]) -> String {
    let text: String = bytes.iter().take(200).map(|byte| byte.escape_ascii().to_string()).collect();
    format!("\"{text}\"{}", if bytes.len() > 200 { ".." } else { "" })
}

/// A refusal's numbers with their names.
fn in_words(numbers: &[u64]) -> String {
    let refusal = refusal_of(numbers[0]);
    let mut words = vec![refusal.name.to_string()];
    for (value, number) in refusal.values.iter().zip(&numbers[1..]) {
        words.push(match *value {
            Value::Table(name) => format!("{name} {}", table_name(*number)),
            Value::Field => format!("field {}", field_name(*number)),
            Value::Kind => format!("{} identity", kind_name(*number)),
            Value::Direction => direction_name(*number).into(),
            Value::Plain(name) => format!("{name} {number}"),
        });
    }
    words.join(", ")
}
