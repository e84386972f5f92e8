//! The site of a refusal: the place in the packing rules, in view.rs or in the checks of deadlines that gave it.
//!
//! Most refusals name their site by refusal, table and field. Where several places give the
//! same numbers, or one test has several parts, the case's own rows tell them apart.
use check::night::is_of_the_night;
use check::owner::is_of_mode_asked;
use check::{answer, rows, stations, Answer};
use pack::convert::turned;
use pack::corpus::{Case, Kind};
use pack::layout::{ACTIONS, MODES, PORTS, REACTORS, SCOPES, TIMER};
use pack::names::{direction_name, field_name, kind_name, table_name};
use pack::packing;
use pack::row::Row;

/// The name of the site; none for an answer that is no refusal, for that of a mode asked that is not there, and for the night's own, and for an output too short, and for levels that do not rise.
pub fn of(case: &Case, answer: &Answer) -> Option<String> {
    if let Some((kind, output)) = case.conversion() {
        return conversion_site(&case.pack, kind, output.len());
    }
    let Answer::Refused(numbers) = answer else {
        return None;
    };
    if case.mode().is_some() && is_of_mode_asked(numbers) || is_of_the_night(numbers) {
        return None;
    }
    if numbers[0] == 32 {
        return None;
    }
    if let Err(fault) = packing::check(case, case.kind()?) {
        return Some(packing_site(&fault));
    }
    let rows = rows(case);
    let stations = stations(&rows);
    let station = refusing_station(case, &stations).map(|place| stations[place]);
    Some(view_site(case, numbers, station.unwrap_or(&[]), station.is_some()))
}

/// The site of a conversion's 1, 3 or 4, which are the packing rules'.
fn conversion_site(pack: &[u8], kind: Kind, room: usize) -> Option<String> {
    let length = packing::check_length(pack.len());
    let fault = match length {
        Ok(()) if room < pack.len() => return None,
        Ok(()) => packing::check_shapes(&turned(pack), kind).err()?,
        Err(fault) => fault,
    };
    Some(packing_site(&fault))
}

fn packing_site(fault: &packing::Fault) -> String {
    match fault.table {
        Some(table) if fault.refusal > 3 => {
            format!("{:02} {}: {}", fault.refusal, table_name(table.into()), fault.why)
        }
        _ => format!("{:02} {}", fault.refusal, fault.why),
    }
}

/// Of a 12: how long its target table is, and where the station stands; none for other answers.
pub fn short_table(case: &Case, answer: &Answer) -> Option<String> {
    let Answer::Refused(numbers) = answer else {
        return None;
    };
    let [12, _, _, _, _, _, length] = numbers[..] else {
        return None;
    };
    let length = match length {
        0 => "no row",
        1 => "one row",
        2..=255 => "2 to 255 rows",
        _ => "256 rows and more",
    };
    let place = match refusing_station(case, &stations(&rows(case))) {
        _ if case.kind() == Some(Kind::Enclave) => "a station",
        Some(0) => "the first station of a line",
        _ => "a later station of a line",
    };
    Some(format!("{length}, {place}"))
}

/// The place of the first station that is refused by itself.
fn refusing_station(case: &Case, stations: &[&[Row]]) -> Option<usize> {
    stations.iter().position(|station| {
        let alone = Case { kind: 0, pack: pack::row::pack(station), ..case.clone() };
        matches!(answer(&alone), Answer::Refused(_))
    })
}

fn view_site(case: &Case, numbers: &[u64], station: &[Row], in_station: bool) -> String {
    let n = |at: usize| numbers[at];
    let whole = |text: String| format!("{:02} {text}", n(0));
    let place = |at: usize, fact: &str| {
        whole(format!("{}{}{}", table_name(n(1)), at_field(numbers, at), after(fact)))
    };
    match n(0) {
        12 => place(3, list_pass(numbers, station)),
        13 => place(3, overflow(numbers)),
        14 | 24 => place(3, ""),
        15 | 16 => place(0, pair_pass(numbers, station)),
        17 => place(3, ownership(numbers, station)),
        19 => whole(format!("{}{}", kind_name(n(1)), after(invalid(case, numbers)))),
        20 | 21 => whole(kind_name(n(1)).into()),
        22 => whole(format!(
            "reactors.bank{}",
            after(if n(3) == 0 { "total 0" } else { "index not below total" })
        )),
        25 => place(3, presence(numbers, station)),
        27 => whole(format!("{} half, {}", direction_name(n(4)), if in_station { "rows" } else { "pairs" })),
        28 => whole(field_name(n(4)).into()),
        18 => whole("scopes".into()),
        39 => whole("deadlines".into()),
        _ => place(0, ""),
    }
}

fn at_field(numbers: &[u64], at: usize) -> String {
    if at == 0 {
        String::new()
    } else {
        format!(".{}", field_name(numbers[at]))
    }
}

fn after(fact: &str) -> String {
    if fact.is_empty() {
        String::new()
    } else {
        format!(": {fact}")
    }
}

fn table(station: &[Row], table: u8) -> Vec<&Row> {
    station.iter().filter(|row| row.table == table).collect()
}

/// Whether some range of the owners, whose start is number `at`, holds entries `first` to `last`.
fn covered(station: &[Row], owners: u8, at: usize, first: u64, last: u64) -> bool {
    let holds = |row: &&Row| {
        let (start, length) = (row.numbers[at], row.numbers[at + 1]);
        start <= first && last < start + length
    };
    table(station, owners).iter().any(holds)
}

/// Which pass over a list met entries `first` to `last` first.
fn pass(list: u64, station: &[Row], first: u64, last: u64) -> &'static str {
    let scope_list =
        |at| if covered(station, SCOPES, at, first, last) { "scope list" } else { "whole table" };
    match list {
        8 if covered(station, ACTIONS, 4, first, last) => "action triggers",
        8 if covered(station, PORTS, 2, first, last) => "port triggers",
        8 => "whole table",
        16 => scope_list(9),
        17 => scope_list(11),
        18 => scope_list(13),
        _ => "",
    }
}

fn list_pass(numbers: &[u64], station: &[Row]) -> &'static str {
    pass(numbers[1], station, numbers[2], numbers[2])
}

fn pair_pass(numbers: &[u64], station: &[Row]) -> &'static str {
    match numbers[1] {
        list @ (8 | 16..=18) => pass(list, station, numbers[2] - 1, numbers[2]),
        _ => "",
    }
}

fn overflow(numbers: &[u64]) -> &'static str {
    let wide = matches!(numbers[1], 0 | 2);
    match numbers[5].checked_add(numbers[6]) {
        Some(_) if wide => "end too large",
        Some(_) => "",
        None => "end past 64 bits",
    }
}

/// Which part of an ownership test failed first.
fn ownership(numbers: &[u64], station: &[Row]) -> &'static str {
    let (list, index) = (numbers[1], numbers[2]);
    let row = |of: u8, at: u64| table(station, of)[at as usize];
    match (list, field_name(numbers[3])) {
        (2, "root_scope") => {
            let scope = row(SCOPES, row(REACTORS, index).numbers[2]);
            if scope.numbers[1] != index {
                "of another reactor"
            } else {
                "has a mode"
            }
        }
        (6, "scope.mode") => {
            let scope = row(SCOPES, row(MODES, index).numbers[1]);
            if scope.present(2) {
                "another mode"
            } else {
                "no mode"
            }
        }
        (7, "mode") => {
            let mode = row(MODES, row(SCOPES, index).numbers[2]);
            if mode.numbers[1] != index {
                "scope of the mode"
            } else {
                "reactor of the mode"
            }
        }
        (_, "dependency_level") => list_pass(numbers, station),
        _ => "",
    }
}

fn presence(numbers: &[u64], station: &[Row]) -> &'static str {
    match table(station, ACTIONS)[numbers[2] as usize].second {
        kind if kind < TIMER => "standard without",
        TIMER => "timer with",
        _ => "shutdown with",
    }
}

/// Why an identity is invalid.
fn invalid(case: &Case, numbers: &[u64]) -> &'static str {
    let part = case.part(numbers[3] as u8, numbers[4], numbers[5]).expect("packing passed");
    let text = std::str::from_utf8(part).expect("packing passed");
    let (Some(first), Some(last)) = (text.chars().next(), text.chars().last()) else {
        return "empty";
    };
    if first.is_whitespace() && !first.is_control() {
        "white space in front"
    } else if text.contains(|scalar: char| scalar.is_control()) {
        "control"
    } else if last.is_whitespace() {
        "white space behind"
    } else {
        unreachable!("{text:?} is valid")
    }
}
