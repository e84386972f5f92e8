//! A case through the packing rules, boomerang's check and that of the deadlines, as one answer; or a change, a conversion, a scope tree or a tally.
mod answer;
pub mod change;
mod deadlines;
mod enclave;
mod identities;
pub mod lent;
mod links;
pub mod night;
mod numbers;
pub mod owner;
mod places;
mod rising;
pub mod tally;
pub mod tree;
pub mod worth;

pub use answer::Answer;
pub use deadlines::Deadlines;
pub use links::links;
pub use places::{Part, Place};

use boomerang_runtime::image::{
    EnclaveImage, EnclaveImageView, FederateId, FederateImage, FederateImageView, ImageValidationError,
    IndexSpan, RuntimeBackendId, TargetId,
};
use enclave::Enclave;
use identities::Identities;
use pack::convert;
use pack::corpus::{Case, Kind, FIRST_TREE, NEXT_TREE, NIGHT, RISING, TALLY};
use pack::layout::{ENCLAVE, FEDERATE};
use pack::packing;
use pack::row::Row;

/// The answer for one case.
pub fn answer(case: &Case) -> Answer {
    if case.kind == TALLY {
        return Answer::Tally(tally::of(&case.rest));
    }
    if let Some((number, row)) = case.change() {
        return Answer::Change(change::of(case, number, row));
    }
    if let Some((kind, output)) = case.conversion() {
        return Answer::Converted(convert::of(&case.pack, kind, output));
    }
    if matches!(case.kind, FIRST_TREE | NEXT_TREE) {
        return Answer::Tree(tree::of(case.kind, &case.rest));
    }
    let kind = case.kind().expect("a kind that a corpus has");
    let answer = match packing::check(case, kind) {
        Err(fault) => Answer::Refused(std::iter::once(fault.refusal).chain(fault.number).collect()),
        Ok(()) => after_packing(case, kind),
    };
    if case.kind == RISING || case.reaction().is_some() {
        return rising::of(case, answer);
    }
    if !matches!(answer, Answer::Accepted { .. }) {
        return answer;
    }
    let rows = rows(case);
    match (case.mode(), case.kind) {
        (Some(mode), _) => owner::of(&rows, mode),
        (None, NIGHT) => night::refusal(case, &stations(&rows)).map_or(answer, Answer::Refused),
        _ => answer,
    }
}

/// The rows of a pack that passes the packing rules.
pub fn rows(case: &Case) -> Vec<Row> {
    case.pack.chunks(pack::RECORD).map(Row::read).collect()
}

/// The stations' rows: each record 1 and what follows it.
pub fn stations(rows: &[Row]) -> Vec<&[Row]> {
    let rows = match rows.first() {
        Some(row) if row.table == FEDERATE => &rows[1..],
        _ => rows,
    };
    rows.chunk_by(|_, next| next.table != ENCLAVE).collect()
}

/// A refusal and where it stands.
pub struct Fault {
    pub place: Place,
    pub numbers: Vec<u64>,
}

/// What a case that passes the packing rules is refused for.
pub struct Faults {
    /// By the Rust, which does not see the deadlines.
    pub rust: Option<Fault>,
    /// The first fault of the deadlines.
    pub deadlines: Option<Fault>,
}

impl Faults {
    /// The one that comes first.
    pub fn first(self) -> Option<Fault> {
        [self.rust, self.deadlines].into_iter().flatten().min_by_key(|fault| fault.place)
    }
}

fn after_packing(case: &Case, kind: Kind) -> Answer {
    if let Some(fault) = faults(case, kind).first() {
        return Answer::Refused(fault.numbers);
    }
    let rows = rows(case);
    let stations = stations(&rows);
    let links = stations.iter().map(|rows| links(rows)).sum();
    match kind {
        Kind::Enclave => Answer::Accepted { stations: None, links },
        Kind::Federate => Answer::Accepted { stations: Some(stations.len() as u64), links },
    }
}

/// What a case is refused for; it passes the packing rules.
pub fn faults(case: &Case, kind: Kind) -> Faults {
    let rows = rows(case);
    let stations = stations(&rows);
    Faults { rust: of_rust(case, kind, &rows, &stations), deadlines: of_deadlines(&stations) }
}

/// What the Rust refuses; the deadlines are left out of its images.
fn of_rust(case: &Case, kind: Kind, rows: &[Row], stations: &[&[Row]]) -> Option<Fault> {
    let identities = Identities::of(case, rows);
    let enclaves: Vec<Enclave> = stations.iter().map(|rows| Enclave::of(rows, &identities)).collect();
    let images: Vec<EnclaveImage> = enclaves.iter().map(Enclave::image).collect();
    let (error, start) = match kind {
        Kind::Enclave => (of_alone(&images[0])?, 0),
        Kind::Federate => {
            let federate = federate(&rows[0], &identities);
            (FederateImageView::new(federate, &images).err()?, rows[0].numbers[6])
        }
    };
    let mut numbers = numbers::of(&error, &identities);
    let alone = || images.iter().position(|image| of_alone(image).is_some());
    let place = places::of_rust(&numbers, start, alone);
    if let (12, Place::Station(station, Part::Rust)) = (numbers[0], place) {
        numbers.push(length(stations[station], numbers[4]));
    }
    Some(Fault { place, numbers })
}

/// What the Rust refuses of one station by itself.
fn of_alone<'a>(image: &EnclaveImage<'a>) -> Option<ImageValidationError<'a>> {
    EnclaveImageView::new(image.clone()).err()
}

/// The first station with a deadline at fault.
fn of_deadlines(stations: &[&[Row]]) -> Option<Fault> {
    stations.iter().enumerate().find_map(|(station, rows)| {
        let numbers = Deadlines::of(rows).refusal()?;
        Some(Fault { place: Place::Station(station, Part::Deadlines), numbers })
    })
}

/// The rows of a table, the last number of a 12, which the Rust does not give: the records of the station
/// whose first byte is the table's number.
fn length(station: &[Row], table: u64) -> u64 {
    station.iter().filter(|row| u64::from(row.table) == table).count() as u64
}

fn federate<'a>(row: &Row, identities: &'a Identities) -> FederateImage<'a> {
    let [id, target, runtime] = [0, 2, 4].map(|at| identities.text(row, at));
    FederateImage::new(
        FederateId::new(id),
        TargetId::new(target),
        RuntimeBackendId::new(runtime),
        IndexSpan::new(row.numbers[6] as usize, row.numbers[7] as usize),
    )
}
