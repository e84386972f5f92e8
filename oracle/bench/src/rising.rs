//! The second check of a station, and what its first reaction reaches: time of each over the pack. The Rust has neither, so the ordinary check stands beside them.
use crate::measure::{alternate, estimate, keep, Effort, Side};
use crate::names::{place, texts};
use crate::rows::{binding, enclave, reactor, scope, PORT, REACTION, STATE};
use crate::show;
use crate::stats::{growth, Spread};
use image_check::{check_enclave, check_rising, reached_in_bits, reached_in_bytes, Answer, Reached};
use pack::layout::{PORTS, REACTIONS, TRIGGERS};
use pack::row::{pack, Row};
use std::cell::RefCell;
use std::hint::black_box;

const EFFECTS: u8 = 10;
/// Records of a station beside its reactions, their ports and lists.
const STATION: usize = 6;
const SIZES: [usize; 5] = [256, 1024, 4096, 16_384, 65_536];

/// Reactions by level, the reactions that each port triggers, and the ports that each has effects on; all lists in order.
struct Station {
    levels: Vec<u64>,
    triggers: Vec<Vec<u64>>,
    effects: Vec<Vec<u64>>,
}

/// A name, and the station of so many records at most, whose first reaction reaches all others.
type Family = (&'static str, fn(usize) -> Station);

const FAMILIES: [Family; 2] = [("shared-ports", shared), ("longest-chain", chain)];

/// Reaction 0 triggers half of the others, and all of these have effects on one port, which triggers the other half.
fn shared(records: usize) -> Station {
    let many = ((records - STATION - 4) / 5) as u64;
    let effects = [vec![vec![0]], vec![vec![1]; many as usize], vec![vec![]; many as usize]].concat();
    Station {
        levels: (0..2 * many + 1).map(|at| at.div_ceil(many)).collect(),
        triggers: vec![(1..many + 1).collect(), (many + 1..2 * many + 1).collect()],
        effects,
    }
}

/// Each reaction has a port of its own, which triggers the next.
fn chain(records: usize) -> Station {
    let many = ((records - 3) / 4) as u64;
    Station {
        levels: (0..many).collect(),
        triggers: (1..many).map(|target| vec![target]).collect(),
        effects: (0..many).map(|at| if at + 1 < many { vec![at] } else { vec![] }).collect(),
    }
}

impl Station {
    fn pack(&self) -> Vec<u8> {
        let (mut triggers, mut effects) = (vec![], vec![]);
        let mut rows = vec![enclave(place(0), 1, 0), reactor()];
        for list in &self.triggers {
            rows.push(Row::new(PORTS, &[2, 0, triggers.len() as u64, list.len() as u64]));
            triggers.extend(list.iter().map(|to| Row::new(TRIGGERS, &[self.levels[*to as usize], *to])));
        }
        for (level, list) in self.levels.iter().zip(&self.effects) {
            let (start, length) = (effects.len() as u64, list.len() as u64);
            rows.push(Row::new(REACTIONS, &[0, 0, *level, 1, 0, 0, start, length, 0, 0, 0, 0, 0]));
            effects.extend(list.iter().map(|port| Row::new(EFFECTS, &[*port])));
        }
        rows.push(scope(None));
        rows.extend([triggers, effects].concat());
        rows.extend([STATE, REACTION, PORT].iter().zip(0..).map(|(kind, at)| binding(place(at), *kind)));
        pack(&rows)
    }
}

/// Prints the rows; whether all answers are those that the stations were made for.
pub fn run(quick: bool, effort: Effort) -> bool {
    println!(
        "\n{:<16} {:>9} {:>10} {:>10} {:>10} {:>10}",
        "levels", "pack", "check", "rising", "in bytes", "in bits"
    );
    let sizes = if quick { &SIZES[..3] } else { &SIZES[..] };
    FAMILIES.iter().fold(true, |agreed, family| table(*family, sizes, effort) && agreed)
}

fn table((name, make): Family, sizes: &[usize], effort: Effort) -> bool {
    let mut points = vec![vec![]; 4];
    for size in sizes {
        let station = make(*size);
        let pack = station.pack();
        let Some(medians) = measure(&station, &pack, effort) else {
            println!("{name:<16} DIFFERENT at {size} records");
            return false;
        };
        let times: Vec<String> =
            medians.iter().map(|median| format!("{:>10}", show::time(*median))).collect();
        println!("{name:<16} {:>9} {}", show::count(pack.len() as u64), times.join(" "));
        points.iter_mut().zip(medians).for_each(|(points, median)| points.push((pack.len() as f64, median)));
    }
    if sizes.len() > 3 {
        let exponents: Vec<String> =
            points.iter().map(|points| format!("{:>10.2}", growth(&points[points.len() - 3..]))).collect();
        println!("{:<16} {:>9} {}", "", "growth", exponents.join(" "));
    }
    true
}

/// Medians of the ordinary check, the second one, and the question in bytes and in bits.
fn measure(station: &Station, pack: &[u8], effort: Effort) -> Option<Vec<f64>> {
    let (batch, house) = texts(3);
    let count = station.levels.len();
    let (bytes, bits) = (RefCell::new(vec![0; count]), RefCell::new(vec![0; count.div_ceil(8)]));
    let ordinary = || check_enclave(black_box(pack), &batch, &house);
    let rising = || check_rising(black_box(pack), &batch, &house);
    let in_bytes = || reached_in_bytes(black_box(pack), &batch, &house, 0, &mut bytes.borrow_mut());
    let in_bits = || reached_in_bits(black_box(pack), &batch, &house, 0, &mut bits.borrow_mut());
    let (yes, all) = (Answer::Enclave { links: 0 }, Reached::Count(count as u32 - 1));
    if ordinary() != yes || rising() != yes || in_bytes() != all || in_bits() != all {
        return None;
    }
    let sides: [Side; 4] =
        [&|| keep(ordinary()), &|| keep(rising()), &|| keep(in_bytes()), &|| keep(in_bits())];
    let sides: Vec<(Side, f64)> = sides.map(|side| (side, estimate(None, side))).into();
    Some(alternate(&sides, effort).iter().map(|times| Spread::of(times).median()).collect())
}
