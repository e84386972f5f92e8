//! Stations whose levels rise, or nearly do, and questions of them (document 02, Wishes 4 and 11).
use crate::damage::damage;
use crate::line::{grown, Extent};
use crate::plan::{Size, SMALL};
use crate::rng::Rng;
use crate::texts::Texts;
use pack::corpus::{Case, Kind, REACHED_BITS, REACHED_BYTES, RISING};
use pack::layout::{BINDINGS, ENCLAVE, PORTS, REACTIONS, REACTORS, SCOPES, TRIGGERS};
use pack::row::{pack, Row};

const EFFECTS: u8 = 10;

/// The second check, or what a reaction reaches, in a byte or a bit each.
pub fn case(rng: &mut Rng) -> Case {
    let (mut rows, mut texts) =
        if rng.chance(1, 5) { any_levels(rng) } else { Levels::new(rng).station(rng) };
    if rng.chance(1, 8) {
        damage(rng, &mut rows, &mut texts, None);
    }
    let kind = rng.pick(&[RISING, REACHED_BYTES, REACHED_BYTES, REACHED_BITS, REACHED_BITS]);
    let rest = if kind == RISING { vec![] } else { asked(rng, kind, &rows) };
    Case { kind, pack: pack(&rows), batch: texts.batch, house: texts.house, rest }
}

/// A grown station, whose levels are by chance.
fn any_levels(rng: &mut Rng) -> (Vec<Row>, Texts) {
    let size = Size { ports: 4, reactions: 6, entries: 4, ..SMALL };
    grown(rng, Kind::Enclave, Extent { size, stations: 1, boundaries: 0, doubled: false })
}

/// A reaction, mostly one that is there, and bytes to lend: one less than are needed, as many, or more.
fn asked(rng: &mut Rng, kind: u8, rows: &[Row]) -> Vec<u8> {
    let count = rows.iter().filter(|row| row.table == REACTIONS).count() as u64;
    let after = [count, count + 1, u64::from(u32::MAX)];
    let there = count > 0 && rng.chance(9, 10);
    let reaction = if there { rng.below(count) * rng.below(3).min(1) } else { rng.pick(&after) };
    let need = if kind == REACHED_BITS { count.div_ceil(8) } else { count };
    let lent = match rng.below(8) {
        0 => need.saturating_sub(1),
        1 => rng.below(need + 1),
        2 | 3 => need + rng.between(1, 20),
        _ => need,
    };
    let mut rest: Vec<u8> = (reaction as u32).to_be_bytes().into();
    rest.extend((lent as u32).to_be_bytes());
    rest.extend((0..lent).map(|_| rng.pick(&[0, 1, 2, 0x7f, 0x80, 0xff])));
    rest
}

/// Levels of reactions, the reactions that each port triggers, and the ports that each reaction has effects on.
struct Levels {
    levels: Vec<u64>,
    triggers: Vec<Vec<usize>>,
    effects: Vec<Vec<usize>>,
}

impl Levels {
    /// A chain, ports that many share, layers in which ways part and meet, or ports by chance; now and then with one trigger that does not rise.
    fn new(rng: &mut Rng) -> Self {
        let count = rng.pick(&[0, 1, 2, 3, 5, 7, 8, 9, 12, 16, 17, 64]) as usize;
        let mut levels = match rng.below(4) {
            0 => Self::chain(rng, count),
            1 => Self::shared(rng, count),
            2 => Self::layers(rng, count),
            _ => Self::by_chance(rng, count),
        };
        if rng.chance(1, 5) {
            levels.spoil(rng);
        }
        levels
    }

    fn of(levels: Vec<u64>, ports: usize) -> Self {
        let count = levels.len();
        Levels { levels, triggers: vec![vec![]; ports], effects: vec![vec![]; count] }
    }

    /// Each reaction triggers the next of a shuffled order, by a port of its own; some links are missing.
    fn chain(rng: &mut Rng, count: usize) -> Self {
        let mut order: Vec<usize> = (0..count).collect();
        if rng.chance(1, 2) {
            rng.shuffle(&mut order);
        }
        let mut chain = Self::of(vec![0; count], count.saturating_sub(1));
        for (level, reaction) in order.iter().enumerate() {
            chain.levels[*reaction] = level as u64 * 2;
        }
        for (port, pair) in order.windows(2).enumerate() {
            if rng.chance(15, 16) {
                chain.triggers[port].push(pair[1]);
                chain.effects[pair[0]].push(port);
            }
        }
        chain
    }

    /// One or two ports that all lower reactions have effects on, and that trigger all higher ones.
    fn shared(rng: &mut Rng, count: usize) -> Self {
        let ports = rng.between(1, 2) as usize;
        let mut shared = Self::of((0..count).map(|_| rng.below(3)).collect(), ports);
        for port in 0..ports {
            shared.triggers[port] = (0..count).filter(|at| shared.levels[*at] > port as u64).collect();
            for reaction in 0..count {
                if shared.levels[reaction] <= port as u64 {
                    let times = rng.between(1, 2) as usize;
                    shared.effects[reaction].extend(vec![port; times]);
                }
            }
        }
        shared
    }

    /// Layers of up to three reactions; each layer's port triggers the next layer, so that every way parts and meets again.
    fn layers(rng: &mut Rng, count: usize) -> Self {
        let width = rng.between(1, 3) as usize;
        let mut layers = Self::of((0..count).map(|at| (at / width) as u64).collect(), count.div_ceil(width));
        for at in 0..count {
            layers.effects[at].push(at / width);
            if at >= width {
                layers.triggers[at / width - 1].push(at);
            }
        }
        layers
    }

    /// Each port triggers some reactions of its level and above; a reaction has effects on ports whose lowest trigger is above it.
    fn by_chance(rng: &mut Rng, count: usize) -> Self {
        let ports = rng.between(0, 6) as usize;
        let mut chance = Self::of((0..count).map(|_| rng.below(5)).collect(), ports);
        for port in 0..ports {
            let least = rng.below(5);
            chance.triggers[port] =
                (0..count).filter(|at| chance.levels[*at] >= least && rng.chance(1, 3)).collect();
        }
        for reaction in 0..count {
            for _ in 0..rng.below(4) {
                let port = rng.below(ports.max(1) as u64) as usize;
                if port < ports && chance.rises(reaction, port) {
                    chance.effects[reaction].push(port);
                }
            }
        }
        chance
    }

    fn rises(&self, reaction: usize, port: usize) -> bool {
        self.triggers[port].iter().all(|target| self.levels[reaction] < self.levels[*target])
    }

    /// One port more among a reaction's effects, or another level of one reaction.
    fn spoil(&mut self, rng: &mut Rng) {
        if self.levels.is_empty() {
            return;
        }
        let reaction = rng.place(self.levels.len());
        if !self.triggers.is_empty() && rng.chance(1, 2) {
            let port = rng.place(self.triggers.len());
            let at = rng.place(self.effects[reaction].len() + 1);
            self.effects[reaction].insert(at, port);
        } else {
            self.levels[reaction] = self.levels[rng.place(self.levels.len())];
        }
    }

    /// An accepted station: one reactor and scope, bindings `b` of the state, `c` of reactions and `d` of ports.
    fn station(mut self, rng: &mut Rng) -> (Vec<Row>, Texts) {
        let mut rows = vec![Row::new(ENCLAVE, &[0, 1, 1, 0, 0, 0, 0, 0]), Row::new(REACTORS, &[0; 8])];
        let (mut triggers, mut effects) = (vec![], vec![]);
        for port in 0..self.triggers.len() {
            let mut entries: Vec<[u64; 2]> =
                self.triggers[port].iter().map(|at| [self.levels[*at], *at as u64]).collect();
            entries.sort();
            skip(
                rng,
                &mut triggers,
                Row::new(TRIGGERS, &[self.levels.first().copied().unwrap_or(0), 0]),
                &self.levels,
            );
            rows.push(Row::new(PORTS, &[2, 0, triggers.len() as u64, entries.len() as u64]));
            triggers.extend(entries.iter().map(|entry| Row::new(TRIGGERS, entry)));
        }
        for reaction in 0..self.levels.len() {
            let list = std::mem::take(&mut self.effects[reaction]);
            skip(rng, &mut effects, Row::new(EFFECTS, &[0]), &self.triggers);
            let (start, length) = (effects.len() as u64, list.len() as u64);
            let numbers = [0, 0, self.levels[reaction], 1, 0, 0, start, length, 0, 0, 0, 0, 0];
            rows.push(Row::new(REACTIONS, &numbers));
            effects.extend(list.iter().map(|port| Row::new(EFFECTS, &[*port as u64])));
        }
        rows.push(Row::new(SCOPES, &[0; 15]));
        rows.extend([triggers, effects].concat());
        for (kind, start) in [(0, 1), (1, 2), (2, 3)] {
            rows.push(Row::new(BINDINGS, &[start, 1]).second(kind));
        }
        (rows, Texts { batch: b"abcd".to_vec(), house: vec![] })
    }
}

/// Now and then an entry that no range covers, where it names a row that is there.
fn skip<T>(rng: &mut Rng, entries: &mut Vec<Row>, entry: Row, there: &[T]) {
    if !there.is_empty() && rng.chance(1, 10) {
        entries.push(entry);
    }
}
