//! Lines for the night's check: 64 reactors and 65, scopes with 8 ancestors and 9, halves in one station and across, lone ones and physical pairs,
//! several faults at once now and then, so that their order decides.
use crate::deep::Half;
use crate::line::{grown, Extent};
use crate::plan::SMALL;
use crate::rng::Rng;
use crate::texts::{names, Texts};
use pack::corpus::Kind;
use pack::layout::{BINDINGS, ENCLAVE, FEDERATE, PORTS, REACTORS, ROUTES, SCOPES};
use pack::row::Row;

/// Which rules a line may break: a few at most, so that each is met alone and with others.
struct Faults {
    reactors: bool,
    depth: bool,
    physical: bool,
    lone: bool,
}

/// One to four stations, each of reactors, scopes in chains and trees, and routes.
pub fn line(rng: &mut Rng) -> (Vec<Row>, Texts) {
    let mut fault = || rng.chance(1, 3);
    let faults = Faults { reactors: fault(), depth: fault(), physical: fault(), lone: fault() };
    let stations = rng.between(1, 4) as usize;
    let boundaries = rng.below(6) as usize;
    let mut texts = Texts::default();
    let [federate, named, bound] = [1, stations, boundaries].map(|count| names(rng, count));
    let mut rows = vec![federate_row(rng, &mut texts, &federate[0], stations as u64)];
    let routes = halves(rng, stations, boundaries, &faults);
    for (id, list) in named.iter().zip(&routes) {
        rows.extend(station(rng, &mut texts, id, list, &bound, &faults));
    }
    (rows, texts)
}

/// A grown line of stations of every kind of row, whose routes are logical three times in four.
pub fn grown_line(rng: &mut Rng) -> (Vec<Row>, Texts) {
    let stations = rng.between(1, 3);
    let boundaries = rng.below(4);
    let extent = Extent { size: SMALL, stations, boundaries, doubled: false };
    let (mut rows, texts) = grown(rng, Kind::Federate, extent);
    if rng.chance(3, 4) {
        rows.iter_mut().filter(|row| row.table == ROUTES).for_each(|row| row.second &= 1);
    }
    (rows, texts)
}

fn federate_row(rng: &mut Rng, texts: &mut Texts, id: &[u8], stations: u64) -> Row {
    let (house, start, length) = texts.place(rng, id);
    let numbers = [start, length, start, length, start, length, rng.below(3), stations];
    Row::new(FEDERATE, &numbers).bits(house * 7)
}

/// The halves of each station, in order: of each boundary one in and one out, in two stations or in one; a lone one where that may be.
fn halves(rng: &mut Rng, stations: usize, boundaries: usize, faults: &Faults) -> Vec<Vec<Half>> {
    let mut routes = vec![Vec::new(); stations];
    for boundary in 0..boundaries {
        let physical = faults.physical && rng.chance(1, 3);
        let half = Half { boundary, outbound: false, physical, delay: rng.below(3) };
        let lone = if faults.lone { rng.below(6) } else { 2 };
        let first = rng.place(stations);
        let second = if rng.chance(1, 2) { first } else { rng.place(stations) };
        if lone != 0 {
            routes[first].push(half);
        }
        if lone != 1 {
            routes[second].push(Half { outbound: true, ..half });
        }
    }
    routes.iter_mut().for_each(|list| list.sort());
    routes
}

/// A parent for each scope that is no root: chains of so many links at most, and scopes beside them.
fn parents(rng: &mut Rng, roots: usize, faults: &Faults) -> Vec<Option<u64>> {
    let deepest = if faults.depth { rng.pick(&[8, 9, 9, 10, 40]) } else { rng.pick(&[0, 1, 3, 7, 8, 8]) };
    let mut parents: Vec<Option<usize>> = vec![None; roots];
    for _ in 0..rng.between(1, 2) {
        let mut above = rng.place(roots);
        for _ in 0..deepest {
            parents.push(Some(above));
            above = parents.len() - 1;
        }
    }
    // In any order: a scope may stand before its parent.
    let mut order: Vec<usize> = (0..parents.len()).collect();
    if rng.chance(1, 2) {
        rng.shuffle(&mut order[roots..]);
    }
    let mut shuffled = vec![None; parents.len()];
    for (at, parent) in parents.iter().enumerate() {
        shuffled[order[at]] = parent.map(|parent| order[parent] as u64);
    }
    shuffled
}

/// One station: its reactors, each with a root scope, scopes of the first reactor under these, its routes, and what they need.
fn station(
    rng: &mut Rng,
    texts: &mut Texts,
    id: &[u8],
    routes: &[Half],
    names: &[Vec<u8>],
    faults: &Faults,
) -> Vec<Row> {
    let few = [1, 1, 1, 2, 3, 63, 64];
    let reactors =
        if faults.reactors && rng.chance(1, 2) { rng.pick(&[64, 65, 65, 66]) } else { rng.pick(&few) };
    let (house, start, length) = texts.place(rng, id);
    let mut rows = vec![Row::new(ENCLAVE, &[start, length, 1, 0, 0, 0, 0, 0]).bits(house)];
    rows.extend((0..reactors).map(|reactor| Row::new(REACTORS, &[0, 0, reactor, 0, 0, 0, 0, 0])));
    if !routes.is_empty() {
        rows.push(Row::new(PORTS, &[1, 0, 0, 0]));
    }
    for (at, parent) in (0..).zip(parents(rng, reactors as usize, faults)) {
        let mut numbers = [0; 15];
        numbers[0] = parent.unwrap_or(0);
        numbers[1] = if at < reactors { at } else { rng.below(reactors) };
        rows.push(Row::new(SCOPES, &numbers).bits(parent.is_some() as u8));
    }
    for half in routes {
        let (house, start, length) = texts.place(rng, &names[half.boundary]);
        let second = half.outbound as u8 | (half.physical as u8) << 1;
        rows.push(Row::new(ROUTES, &[start, length, 0, half.delay]).bits(house).second(second));
    }
    rows.extend(bindings(rng, texts));
    rows
}

/// A state initializer's and a port's.
fn bindings(rng: &mut Rng, texts: &mut Texts) -> Vec<Row> {
    let mut binding = |name: &[u8], kind: u8| {
        let (house, start, length) = texts.place(rng, name);
        Row::new(BINDINGS, &[start, length]).bits(house).second(kind)
    };
    vec![binding(b"a", 0), binding(b"b", 2)]
}
