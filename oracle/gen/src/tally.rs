//! Tallies (document 02, Wish 13): one to begin with, and steps from it on.
use crate::rng::Rng;
use pack::corpus::{Case, TALLY};

/// The most answers that a tally takes.
const FULL: u64 = 1_000_000;

/// How many answers, how many of them accepted, and their links.
type Numbers = [u64; 3];

/// A tally and up to twelve steps; now and then behind parts that are passed over.
pub fn case(rng: &mut Rng) -> Case {
    let start = start(rng);
    let count = rng.pick(&[0, 1, 2, 3, 4, 6, 8, 12]);
    let mut rest: Vec<u8> = start.iter().flat_map(|number| number.to_be_bytes()).collect();
    rest.extend((count as u32).to_be_bytes());
    let mut links = start[2];
    for _ in 0..count {
        step(rng, &mut links, &mut rest);
    }
    let mut part =
        |chance| if rng.chance(chance, 100) { vec![b'x'; rng.between(1, 80) as usize] } else { vec![] };
    Case { kind: TALLY, pack: part(4), batch: part(2), house: part(2), rest }
}

/// Three in four are given by a sequence.
fn start(rng: &mut Rng) -> Numbers {
    match rng.below(8) {
        0 => [0; 3],
        1 => small(rng),
        2 => full(rng),
        3 => long(rng),
        4 => divided(rng),
        5 => at_an_edge(rng),
        _ => ungiven(rng),
    }
}

fn small(rng: &mut Rng) -> Numbers {
    let answers = rng.below(30);
    let accepted = rng.below(answers + 1);
    [answers, accepted, if accepted == 0 { 0 } else { rng.below(100) }]
}

/// Full, or some answers less.
fn full(rng: &mut Rng) -> Numbers {
    let answers = FULL - rng.below(5);
    let accepted = rng.pick(&[0, 1, answers / 2, answers - 1, answers]);
    let links = rng.pick(&[0, 1, u64::MAX - 1, u64::MAX]);
    [answers, accepted, if accepted == 0 { 0 } else { links }]
}

/// Links near the end of 64 bits.
fn long(rng: &mut Rng) -> Numbers {
    let answers = rng.pick(&[1, 2, 9, FULL / 2, FULL - 1, FULL]);
    let accepted = rng.between(1, answers);
    let less = rng.below(1 << 20);
    [answers, accepted, u64::MAX - rng.pick(&[0, 0, 1, 2, less])]
}

/// Numbers with a large divisor in common.
fn divided(rng: &mut Rng) -> Numbers {
    let divisor = rng.pick(&[2, 6, 64, 1000, 4096, 99_991, 250_000, 333_333, 500_000]);
    let answers = divisor * rng.between(1, FULL / divisor);
    let accepted = divisor * rng.between(1, answers / divisor);
    let most = u64::MAX / accepted;
    let times = rng.pick(&[0, 1, 2, most - 1, most]);
    [answers, accepted, accepted * times + rng.pick(&[0, 0, divisor - 1]).min(u64::MAX - accepted * times)]
}

/// The last that a sequence gives.
fn at_an_edge(rng: &mut Rng) -> Numbers {
    let answers = rng.pick(&[1, 2, FULL - 1, FULL]);
    rng.pick(&[[answers, answers, 0], [answers, 0, 0], [answers, 1, u64::MAX], [answers, answers, u64::MAX]])
}

/// Given by no sequence: more accepted than answers, too many answers, links of no accepted answer, or several of these.
fn ungiven(rng: &mut Rng) -> Numbers {
    let answers = rng.pick(&[0, 1, 5, FULL - 1, FULL]);
    let more = rng.pick(&[FULL + 1, FULL + 2, 1 << 32, u64::MAX]);
    let links = rng.pick(&[1, 2, u64::MAX]);
    rng.pick(&[
        [answers, answers + 1, 0],
        [answers, answers + 1, links],
        [answers, more, 0],
        [more, 0, 0],
        [more, 1, links],
        [more, more, u64::MAX],
        [answers, 0, links],
        [more, 0, links],
        [more - 1, more, links],
    ])
}

/// One step more; `links` is the sum so far where all that was added was taken.
fn step(rng: &mut Rng, links: &mut u64, rest: &mut Vec<u8>) {
    let kind = rng.pick(&[0, 1, 1, 1, 2, 3, 3]);
    rest.push(kind);
    if kind == 1 {
        let room = u64::MAX - *links;
        let any = rng.next();
        let more =
            rng.pick(&[0, 0, 1, 2, 6, 1000, any % 1000, any, room, room, room.saturating_add(1), u64::MAX]);
        rest.extend(more.to_be_bytes());
        *links = links.checked_add(more).unwrap_or(*links);
    }
}
