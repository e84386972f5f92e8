//! boomerang's errors as document 01's numbers: of 12 the five that the Rust gives.
use crate::identities::Identities;
use boomerang_runtime::image::{ImageValidationError as Error, RouteDirection};
use pack::layout::TABLES;
use pack::names::{FIELDS, KINDS};

pub fn from_1(names: &[&str], name: &str) -> u64 {
    let at = names.iter().position(|known| *known == name);
    1 + at.unwrap_or_else(|| panic!("document 01 does not name {name}")) as u64
}

/// The number of a table by boomerang's name for it.
fn table(name: &str) -> u64 {
    match name {
        "image" => 1,
        "Enclave key domain" => 255,
        _ => TABLES.iter().position(|table| table.name == name).expect("a table") as u64,
    }
}

fn direction(direction: RouteDirection) -> u64 {
    match direction {
        RouteDirection::Inbound => 0,
        RouteDirection::Outbound => 1,
    }
}

/// The refusal's number and the numbers after it.
pub fn of(error: &Error, identities: &Identities) -> Vec<u64> {
    of_row(error).unwrap_or_else(|| of_identity(error, identities))
}

fn field(name: &str) -> u64 {
    from_1(&FIELDS, name)
}

/// Refusals that name a row by its table and index; none for the others.
fn of_row(error: &Error) -> Option<Vec<u64>> {
    use Error::*;
    let at = |refusal: u64, name, index: u32, rest: &[u64]| {
        Some([&[refusal, table(name), index.into()], rest].concat())
    };
    match *error {
        TableTooLarge { .. } => unreachable!("a pack holds at most 65,536 records"),
        ReferenceOutOfBounds { table: name, index, field: of, target, referenced } => {
            at(12, name, index, &[field(of), table(target), referenced.into()])
        }
        RangeOutOfBounds { table: name, index, field: of, target, start, len } => {
            at(13, name, index, &[field(of), table(target), start as u64, len as u64])
        }
        RangesNotMonotonic { table: name, index, field: of, start, previous_end } => {
            at(14, name, index, &[field(of), start as u64, previous_end as u64])
        }
        EntriesNotSorted { table: name, index } => at(15, name, index, &[]),
        DuplicateEntry { table: name, index } => at(16, name, index, &[]),
        OwnershipMismatch { table: name, index, field: of } => at(17, name, index, &[field(of)]),
        ScopeParentCycle { scope } => Some(vec![18, scope.into()]),
        InvalidBankInfo { reactor, index, total } => {
            Some(vec![22, reactor.into(), index.into(), total.into()])
        }
        StorageBoundExceeded { table: name, index, kind: _, slot, bound } => {
            at(23, name, index, &[slot.into(), bound.into()])
        }
        BindingKindMismatch { table: name, index, field: of } => at(24, name, index, &[field(of)]),
        BindingPresenceMismatch { table: name, index, field: of } => at(25, name, index, &[field(of)]),
        _ => None,
    }
}

/// Refusals that name an identity by its place.
fn of_identity(error: &Error, identities: &Identities) -> Vec<u64> {
    use Error::*;
    let kinds = |refusal: u64, kind, index: u32, id| {
        [&[refusal, from_1(&KINDS, kind), index.into()], &identities.place(id)[..]].concat()
    };
    let boundaries = |refusal: u64, id, last: u64| [&[refusal], &identities.place(id)[..], &[last]].concat();
    match *error {
        InvalidStableId { kind, index, id } => kinds(19, kind, index, id),
        StableIdsNotSorted { kind, index, id } => kinds(20, kind, index, id),
        DuplicateStableId { kind, index, id } => kinds(21, kind, index, id),
        DuplicateRouteHalf { boundary, direction: of } => boundaries(27, boundary, direction(of)),
        RoutePairMismatch { boundary, field: of } => boundaries(28, boundary, field(of)),
        ref other => unreachable!("neither constructor gives {other:?}"),
    }
}
