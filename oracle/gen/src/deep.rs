//! Images with hundreds to thousands of scopes or routes: chains and cycles far down, halves of a boundary far apart.
use crate::rng::Rng;
use crate::texts::Texts;
use pack::corpus::Kind;
use pack::layout::{BINDINGS, ENCLAVE, FEDERATE, PORTS, REACTORS, ROUTES, SCOPES};
use pack::row::Row;

/// A route half by the number of its boundary.
#[derive(Clone, Copy, PartialEq, Eq, PartialOrd, Ord)]
pub struct Half {
    pub boundary: usize,
    pub outbound: bool,
    pub physical: bool,
    pub delay: u64,
}

/// Many scopes or, in a line, many routes.
pub fn deep(rng: &mut Rng, kind: Kind) -> (Vec<Row>, Texts) {
    let mut texts = Texts { batch: b"abcde".to_vec(), house: Vec::new() };
    let enclaves = if kind == Kind::Enclave { 1 } else { rng.between(1, 12) as usize };
    let boundaries = if kind == Kind::Enclave { 0 } else { rng.pick(&[0, 40, 700, 3000]) };
    let most = rng.pick(&[40, 70, 600, 4200, 5000]);
    let mut routes = halves(rng, enclaves, boundaries);
    let names = names(&mut texts, enclaves, boundaries);
    let mut rows = Vec::new();
    if kind == Kind::Federate {
        rows.push(Row::new(FEDERATE, &[0, 1, 1, 1, 2, 1, 0, enclaves as u64]));
    }
    let cyclic = if rng.chance(1, 4) { rng.place(enclaves) } else { enclaves };
    for (place, list) in routes.iter_mut().enumerate() {
        list.sort();
        let scopes = parents(rng, (most / enclaves as u64).max(1), place == cyclic);
        rows.extend(enclave(rng, &scopes, list, names[place], &names[enclaves..]));
    }
    (rows, texts)
}

/// Where the text of each enclave's and each boundary's name starts, in both texts alike; six bytes each, in rising order.
fn names(texts: &mut Texts, enclaves: usize, boundaries: usize) -> Vec<u64> {
    texts.house = texts.batch.clone();
    (0..enclaves + boundaries)
        .map(|number| {
            let start = texts.batch.len() as u64;
            for text in [&mut texts.batch, &mut texts.house] {
                text.extend(format!("n{number:05}").bytes());
            }
            start
        })
        .collect()
}

/// The parent of each scope: a chain, a shuffled chain or a tree, in a cyclic one with a scope under one far down.
fn parents(rng: &mut Rng, most: u64, cyclic: bool) -> Vec<Option<u64>> {
    let count = rng.between(most / 2, most).max(1) as usize;
    let mut order: Vec<usize> = (0..count).collect();
    match rng.below(3) {
        0 => rng.shuffle(&mut order),
        1 => order.reverse(),
        _ => {}
    }
    let chain = rng.chance(2, 3);
    let mut parents = vec![None; count];
    for at in 1..count {
        let above = if chain { at - 1 } else { rng.place(at) };
        if chain || rng.chance(9, 10) {
            parents[order[at]] = Some(order[above] as u64);
        }
    }
    if cyclic {
        parents[order[rng.place(count)]] = Some(order[count - 1 - rng.place(count.min(3))] as u64);
    }
    parents
}

/// The halves of each enclave: every boundary's in two enclaves or one; now and then one too many, or two that differ.
fn halves(rng: &mut Rng, enclaves: usize, boundaries: usize) -> Vec<Vec<Half>> {
    let mut routes = vec![Vec::new(); enclaves];
    for boundary in 0..boundaries {
        let half = Half { boundary, outbound: false, physical: rng.chance(1, 3), delay: rng.below(3) };
        let lone = rng.below(8);
        if lone != 0 {
            routes[rng.place(enclaves)].push(half);
        }
        if lone != 1 {
            routes[rng.place(enclaves)].push(Half { outbound: true, ..half });
        }
    }
    for _ in 0..rng.pick(&[0, 1, 1, 2, 3]) {
        spoil(rng, &mut routes);
    }
    routes
}

fn spoil(rng: &mut Rng, routes: &mut [Vec<Half>]) {
    let from = rng.place(routes.len());
    if routes[from].is_empty() {
        return;
    }
    let at = rng.place(routes[from].len());
    match rng.below(4) {
        0 => routes[from][at].physical ^= true,
        1 => routes[from][at].delay += 1,
        2 => {
            let half = routes[from][at];
            let to = rng.place(routes.len());
            if !routes[to]
                .iter()
                .any(|other| (other.boundary, other.outbound) == (half.boundary, half.outbound))
            {
                routes[to].push(half);
            }
        }
        _ => {
            let boundary = routes[from][rng.place(at + 1)].boundary;
            routes[from][at].boundary = boundary;
        }
    }
}

/// One enclave: a reactor, a port, these scopes and routes, and the two bindings that they need. Names are by where they start.
fn enclave(rng: &mut Rng, scopes: &[Option<u64>], routes: &[Half], id: u64, boundaries: &[u64]) -> Vec<Row> {
    let mut rows = vec![
        Row::new(ENCLAVE, &[id, 6, 1, 0, 0, 0, 0, 0]),
        Row::new(REACTORS, &[0; 8]),
        Row::new(PORTS, &[1, 0, 0, 0]),
    ];
    for parent in scopes {
        let mut numbers = [0; 15];
        numbers[0] = parent.unwrap_or(0);
        rows.push(Row::new(SCOPES, &numbers).bits(parent.is_some() as u8));
    }
    for half in routes {
        let second = half.outbound as u8 | (half.physical as u8) << 1;
        let row = Row::new(ROUTES, &[boundaries[half.boundary], 6, 0, half.delay]);
        rows.push(row.bits(rng.below(2) as u8).second(second));
    }
    rows.push(Row::new(BINDINGS, &[3, 1]));
    rows.push(Row::new(BINDINGS, &[4, 1]).second(2));
    rows
}
