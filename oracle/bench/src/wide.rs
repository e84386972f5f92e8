//! Wide stations: units of an action, a port, two reactions and their lists, all shallow.
use crate::names::{place, texts};
use crate::rows::{binding, enclave};
use crate::sample::{links, Sample};
use pack::layout::{ACTIONS, MODES, PORTS, REACTIONS, REACTORS, ROUTES, SCOPES, TRIGGERS};
use pack::row::Row;

/// Records of one unit, and of one reactor beside its units.
const UNIT: usize = 29;
const REACTOR: usize = 5;

/// A station of so many records in which every unit has a reactor of its own.
pub fn reactors(records: usize) -> Sample {
    Wide::new((records - 1) / (UNIT + REACTOR), 1).sample(records)
}

/// The same with one reactor for all units, hence two scopes in all.
pub fn units(records: usize) -> Sample {
    let units = (records - 1 - REACTOR) / UNIT;
    Wide::new(units, units).sample(records)
}

struct Wide {
    units: u64,
    /// Units of one reactor.
    per: u64,
    reactors: u64,
}

impl Wide {
    fn new(units: usize, per: usize) -> Self {
        Wide { units: units as u64, per: per as u64, reactors: units.div_ceil(per) as u64 }
    }

    /// Bindings that no row uses fill up to the number of records.
    fn sample(&self, records: usize) -> Sample {
        let mut rows = self.rows();
        let bindings = records - rows.len();
        rows.extend((0..bindings).map(|at| binding(place(at), at as u8 % 4)));
        Sample::enclave(&rows, texts(bindings.max(1)), links(self.reactors))
    }

    fn rows(&self) -> Vec<Row> {
        let mut rows = vec![enclave(place(0), self.reactors, self.units)];
        rows.extend((0..self.reactors).map(|at| self.reactor(at)));
        rows.extend((0..self.units).map(|unit| self.action(unit)));
        rows.extend((0..self.units).map(|unit| self.port(unit)));
        rows.extend((0..2 * self.units).map(|at| self.reaction(at)));
        rows.extend((0..self.reactors).map(|at| Row::new(MODES, &[at, self.reactors + at])));
        rows.extend((0..self.reactors).map(|at| self.scope(at)));
        rows.extend((0..self.reactors).map(|at| self.mode_scope(at)));
        self.reaction_lists(&mut rows);
        self.scope_lists(&mut rows);
        self.image_lists(&mut rows);
        rows.extend((0..self.units).map(|unit| self.route(unit)));
        rows
    }

    fn owner(&self, unit: u64) -> u64 {
        unit / self.per
    }

    fn reactor(&self, at: u64) -> Row {
        Row::new(REACTORS, &[4 * at * self.per, at, at, at, 1, at, 0, 1]).bits(3)
    }

    /// All four kinds in turn.
    fn action(&self, unit: u64) -> Row {
        let kind = unit as u8 % 4;
        let values = [self.owner(unit), unit, 4 * unit + 3, 1000, 2 * unit, 2];
        let mut row = Row::new(ACTIONS, &values).bits([1, 1, 2, 0][kind as usize]).second(kind);
        row.settle();
        row
    }

    fn port(&self, unit: u64) -> Row {
        Row::new(PORTS, &[4 * unit + 2, self.owner(unit), 2 * unit, 2])
    }

    /// Its level is its index, so that lists of rising reactions are in order.
    fn reaction(&self, at: u64) -> Row {
        let owner = self.owner(at / 2);
        let mut values = vec![owner, owner, at, 4 * (at / 2) + 1];
        values.extend([at, 1].repeat(4));
        values.push(owner);
        Row::new(REACTIONS, &values).bits(2 | at as u8 & 1).second(at as u8 & 1)
    }

    /// A reactor's root scope: the lists of all its units.
    fn scope(&self, at: u64) -> Row {
        let first = at * self.per;
        let count = self.per.min(self.units - first);
        let mut values = vec![0, at, 0, at, 1];
        values.extend([first, count, first, count, 2 * first, 2 * count, first, count, first, count]);
        Row::new(SCOPES, &values)
    }

    /// The scope of a reactor's mode, below its root scope, with empty ranges at the ends.
    fn mode_scope(&self, at: u64) -> Row {
        let ends = [self.reactors, self.units, self.units, 2 * self.units, self.units, self.units];
        let mut values = vec![at, at, at];
        values.extend(ends.iter().flat_map(|end| [*end, 0]));
        Row::new(SCOPES, &values).bits(3)
    }

    /// Tables 8 to 12, two entries for each unit.
    fn reaction_lists(&self, rows: &mut Vec<Row>) {
        let twice = || 0..2 * self.units;
        rows.extend(twice().map(|at| Row::new(TRIGGERS, &[at, at])));
        for table in [9, 10, 11] {
            rows.extend(twice().map(|at| Row::new(table, &[at / 2])));
        }
        rows.extend(twice().map(|at| Row::new(12, &[self.owner(at / 2)])));
    }

    /// Tables 13 to 18.
    fn scope_lists(&self, rows: &mut Vec<Row>) {
        let units = || 0..self.units;
        rows.extend((0..self.reactors).map(|at| Row::new(13, &[self.reactors + at])));
        rows.extend(units().map(|unit| Row::new(14, &[unit])));
        rows.extend(units().map(|unit| Row::new(15, &[unit, 1000])));
        rows.extend((0..2 * self.units).map(|at| Row::new(16, &[at, at])));
        rows.extend(units().map(|unit| Row::new(17, &[2 * unit, 2 * unit, unit])));
        rows.extend(units().map(|unit| Row::new(18, &[2 * unit + 1, 2 * unit + 1, unit])));
    }

    /// Tables 19 to 22.
    fn image_lists(&self, rows: &mut Vec<Row>) {
        let units = || 0..self.units;
        rows.extend(units().map(|unit| Row::new(19, &[unit, 0])));
        rows.extend(units().map(|unit| Row::new(20, &[unit, 1000])));
        rows.extend(units().map(|unit| Row::new(21, &[2 * unit, 2 * unit, unit])));
        rows.extend(units().map(|unit| Row::new(22, &[unit])));
    }

    /// Boundaries take the bindings' names.
    fn route(&self, unit: u64) -> Row {
        let id = place(unit as usize);
        Row::new(ROUTES, &[id.start, id.length, unit, 1000]).bits(id.house).second(unit as u8 % 4)
    }
}
