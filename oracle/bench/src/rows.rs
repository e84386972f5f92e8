//! Rows that several families use.
use crate::names::Place;
use pack::layout::{BINDINGS, ENCLAVE, FEDERATE, PORTS, REACTORS, ROUTES, SCOPES};
use pack::row::Row;

/// Byte 2 of a binding.
pub const STATE: u8 = 0;
pub const REACTION: u8 = 1;
pub const PORT: u8 = 2;

pub fn federate(id: Place, stations: u64) -> Row {
    let Place { house, start, length } = id;
    let values = [start, length, start, length, start, length, 0, stations];
    Row::new(FEDERATE, &values).bits(house * 7)
}

pub fn enclave(id: Place, states: u64, actions: u64) -> Row {
    Row::new(ENCLAVE, &[id.start, id.length, states, actions, 0, 0, 0, 0]).bits(id.house)
}

/// Reactor 0 with binding, slot and scope 0, and no modes.
pub fn reactor() -> Row {
    Row::new(REACTORS, &[0; 8])
}

/// A port with this binding in scope 0, without triggers.
pub fn port(binding: u64) -> Row {
    Row::new(PORTS, &[binding, 0, 0, 0])
}

/// A scope of reactor 0 with empty ranges.
pub fn scope(parent: Option<u64>) -> Row {
    let mut values = [0; 15];
    values[0] = parent.unwrap_or(0);
    Row::new(SCOPES, &values).bits(parent.is_some() as u8)
}

/// Half of a boundary at port 0.
pub fn route(boundary: Place, outbound: bool) -> Row {
    let values = [boundary.start, boundary.length, 0, 1000];
    Row::new(ROUTES, &values).bits(boundary.house).second(outbound as u8)
}

pub fn binding(id: Place, kind: u8) -> Row {
    Row::new(BINDINGS, &[id.start, id.length]).bits(id.house).second(kind)
}
