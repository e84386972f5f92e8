//! Grown cases: one station, or a line of stations whose routes pair off.
use crate::grow::{station, Route};
use crate::plan::Size;
use crate::rng::Rng;
use crate::texts::{name, names, Texts};
use pack::corpus::Kind;
use pack::layout::FEDERATE;
use pack::row::Row;

/// Upper bounds for a grown case; `doubled` gives a boundary more than one half of a direction.
#[derive(Clone, Copy)]
pub struct Extent {
    pub size: Size,
    pub stations: u64,
    pub boundaries: u64,
    pub doubled: bool,
}

/// Rows and texts that pass every check, unless boundaries are doubled.
pub fn grown(rng: &mut Rng, kind: Kind, extent: Extent) -> (Vec<Row>, Texts) {
    let mut texts = Texts::default();
    let stations = if kind == Kind::Enclave { 1 } else { extent.stations };
    let mut rows = Vec::new();
    if kind == Kind::Federate {
        rows.push(federate(rng, &mut texts, stations));
    }
    let agree = kind == Kind::Federate || rng.chance(1, 2);
    let routes = routes(rng, stations, extent, agree);
    let ids = names(rng, stations as usize);
    for (id, routes) in ids.iter().zip(&routes) {
        rows.extend(station(rng, &mut texts, extent.size, id, routes));
    }
    (rows, texts)
}

fn federate(rng: &mut Rng, texts: &mut Texts, stations: u64) -> Row {
    let mut numbers = Vec::new();
    let mut bits = 0;
    for bit in 0..3 {
        let id = name(rng);
        let (house, start, length) = texts.place(rng, &id);
        bits |= house << bit;
        numbers.extend([start, length]);
    }
    let most = (1 << 32) - stations;
    let start = match rng.below(8) {
        0 => most,
        1 => rng.below(most),
        2..=4 => rng.below(4),
        _ => 0,
    };
    numbers.extend([start, stations]);
    Row::new(FEDERATE, &numbers).bits(bits)
}

/// The routes of each station, in order.
fn routes(rng: &mut Rng, stations: u64, extent: Extent, agree: bool) -> Vec<Vec<Route>> {
    let mut routes = vec![Vec::new(); stations as usize];
    if stations == 0 {
        return routes;
    }
    for boundary in names(rng, extent.boundaries as usize) {
        let inbound = half(rng, &boundary, false);
        let outbound =
            if agree { Route { outbound: true, ..inbound.clone() } } else { half(rng, &boundary, true) };
        let lone = rng.below(4);
        for (half, left_out) in [(inbound, lone == 0), (outbound, lone == 1)] {
            let first = rng.below(stations);
            let copies = if extent.doubled { rng.between(1, 2).min(stations) } else { 1 };
            for copy in 0..if left_out { 0 } else { copies } {
                routes[((first + copy) % stations) as usize].push(half.clone());
            }
        }
    }
    for list in &mut routes {
        list.sort_by(|a, b| (&a.boundary, a.outbound).cmp(&(&b.boundary, b.outbound)));
    }
    routes
}

fn half(rng: &mut Rng, boundary: &[u8], outbound: bool) -> Route {
    let physical = rng.chance(1, 3);
    Route { boundary: boundary.to_vec(), outbound, physical, delay: rng.pick(&[0, 1, 2, u64::MAX]) }
}
