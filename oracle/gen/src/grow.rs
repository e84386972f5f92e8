//! Grown stations: rows that pass every check.
use crate::plan::{Plan, Size};
use crate::rng::Rng;
use crate::texts::{names, Texts};
use pack::layout::{
    ACTIONS, BINDINGS, ENCLAVE, MODES, PORTS, REACTIONS, REACTORS, ROUTES, SCOPES, TIMER, TRIGGERS,
};
use pack::row::Row;

/// One half of a boundary.
#[derive(Clone)]
pub struct Route {
    pub boundary: Vec<u8>,
    pub outbound: bool,
    pub physical: bool,
    pub delay: u64,
}

/// Start and length in a list.
type Range = (u64, u64);

/// The rows of one station with these routes, which stand in order.
pub fn station(rng: &mut Rng, texts: &mut Texts, size: Size, id: &[u8], routes: &[Route]) -> Vec<Row> {
    let plan = Plan::new(rng, size, !routes.is_empty());
    let mut grow = Grow { plan, rng, rows: vec![] };
    grow.reactors();
    let mut late = grow.lists_of_actions_and_ports();
    late.extend(grow.reactions());
    grow.modes();
    late.extend(grow.scopes());
    late.extend(grow.global_lists());
    late.sort_by_key(|row| row.table);
    let mut rows = vec![grow.enclave(texts, id)];
    rows.append(&mut grow.rows);
    rows.append(&mut late);
    rows.extend(grow.routes(texts, routes));
    rows.extend(grow.bindings(texts));
    rows
}

struct Grow<'r> {
    plan: Plan,
    rng: &'r mut Rng,
    /// Tables 2 to 7, in order.
    rows: Vec<Row>,
}

impl Grow<'_> {
    fn enclave(&mut self, texts: &mut Texts, id: &[u8]) -> Row {
        let (house, start, length) = texts.place(self.rng, id);
        let above = |table, rows: &[Row]| {
            let slots = rows.iter().filter(|row| row.table == table).map(|row| row.numbers[1] + 1);
            slots.max().unwrap_or(0)
        };
        let states = above(REACTORS, &self.rows) + self.rng.below(2);
        let actions = above(ACTIONS, &self.rows) + self.rng.below(2);
        let mut numbers = [start, length, states, actions, 0, 0, 0, 0];
        for number in &mut numbers[4..] {
            *number = self.rng.below(3);
        }
        Row::new(ENCLAVE, &numbers).bits(house)
    }

    fn reactors(&mut self) {
        for reactor in 0..self.plan.spans.len() as u64 {
            let (start, length) = self.plan.spans[reactor as usize];
            let modal = length > 0 && self.rng.chance(2, 3);
            let banked = self.rng.chance(1, 3);
            let total = self.rng.between(1, 4);
            let root = self.plan.scope_where(|scope| scope.reactor == reactor && scope.mode.is_none());
            let mut row = Row::new(
                REACTORS,
                &[
                    self.plan.binding(self.rng, 0),
                    self.rng.below(4),
                    root,
                    start,
                    length,
                    start + if modal { self.rng.below(length) } else { 0 },
                    self.rng.below(total),
                    total,
                ],
            )
            .bits(modal as u8 | (banked as u8) << 1);
            row.settle();
            self.rows.push(row);
        }
    }

    /// Rows of tables 3 and 4; gives table 8.
    fn lists_of_actions_and_ports(&mut self) -> Vec<Row> {
        let (entries, runs) = self.level_runs();
        let actions = self.plan.actions.len();
        let of_actions = self.ranges(actions, &runs, entries.len());
        for (at, (start, length)) in of_actions.into_iter().enumerate() {
            let kind = self.plan.actions[at];
            let binding = if kind < TIMER { self.plan.binding(self.rng, 3) } else { 0 };
            let periodic = self.rng.chance(1, 2) as u8;
            let scope = self.rng.place(self.plan.scopes.len()) as u64;
            let numbers = [scope, self.rng.below(4), binding, self.delay(), start, length];
            let bits = (kind < TIMER) as u8 | if kind == TIMER { periodic << 1 } else { 0 };
            let mut row = Row::new(ACTIONS, &numbers).bits(bits).second(kind);
            row.settle();
            self.rows.push(row);
        }
        let ports = self.plan.ports as usize;
        for (start, length) in self.ranges(ports, &runs, entries.len()) {
            let scope = self.rng.place(self.plan.scopes.len()) as u64;
            let binding = self.plan.binding(self.rng, 2);
            self.rows.push(Row::new(PORTS, &[binding, scope, start, length]));
        }
        entries.iter().map(|entry| Row::new(TRIGGERS, entry)).collect()
    }

    /// Rows of table 5; gives tables 9 to 12.
    fn reactions(&mut self) -> Vec<Row> {
        let owners = self.plan.reactions.len();
        let mut late = Vec::new();
        let mut ranges = Vec::new();
        for (table, keys) in
            [(9, self.plan.ports), (10, self.plan.ports), (11, self.plan.actions.len() as u64)]
        {
            ranges.push(self.plain_list(table, keys, owners, &mut late));
        }
        ranges.push(self.enabled_modes(&mut late));
        for at in 0..owners {
            let reaction = &self.plan.reactions[at];
            let mut numbers = vec![reaction.reactor, reaction.scope, reaction.level];
            let modes = self.plan.modes_of(reaction.reactor);
            numbers.push(self.plan.binding(self.rng, 1));
            for list in &ranges {
                numbers.extend([list[at].0, list[at].1]);
            }
            let effect = !modes.is_empty() && self.rng.chance(1, 2);
            numbers.push(if effect { self.rng.pick(&modes) } else { 0 });
            let bits = self.rng.below(2) as u8 | (effect as u8) << 1;
            let mut row = Row::new(REACTIONS, &numbers).bits(bits).second(self.rng.below(2) as u8);
            row.settle();
            self.rows.push(row);
        }
        late
    }

    /// Each reaction's range holds modes of its own reactor; between ranges any mode may stand.
    fn enabled_modes(&mut self, late: &mut Vec<Row>) -> Vec<Range> {
        let all = self.plan.modes.len() as u64;
        let mut ranges = Vec::new();
        let mut entries = Vec::new();
        for at in 0..self.plan.reactions.len() {
            if all > 0 && self.rng.chance(1, 4) {
                entries.push(self.rng.below(all));
            }
            let modes = self.plan.modes_of(self.plan.reactions[at].reactor);
            let length = if modes.is_empty() { 0 } else { self.rng.between(0, 2) };
            ranges.push((entries.len() as u64, length));
            entries.extend((0..length).map(|_| self.rng.pick(&modes)));
        }
        late.extend(entries.iter().map(|mode| Row::new(12, &[*mode])));
        ranges
    }

    fn modes(&mut self) {
        for (mode, reactor) in self.plan.modes.iter().enumerate() {
            let scope = self.plan.scope_where(|scope| scope.mode == Some(mode as u64));
            self.rows.push(Row::new(MODES, &[*reactor, scope]));
        }
    }

    /// Rows of table 7; gives tables 13 to 18.
    fn scopes(&mut self) -> Vec<Row> {
        let owners = self.plan.scopes.len();
        let actions = self.plan.actions.len() as u64;
        let mut late = Vec::new();
        let mut ranges = vec![
            self.plain_list(13, owners as u64, owners, &mut late),
            self.plain_list(14, actions, owners, &mut late),
            self.plain_list(15, actions, owners, &mut late),
        ];
        for table in [16, 17, 18] {
            ranges.push(self.level_list(table, owners, &mut late));
        }
        for at in 0..owners {
            let scope = &self.plan.scopes[at];
            let bits = scope.parent.is_some() as u8 | (scope.mode.is_some() as u8) << 1;
            let mut numbers = vec![scope.parent.unwrap_or(0), scope.reactor, scope.mode.unwrap_or(0)];
            for list in &ranges {
                numbers.extend([list[at].0, list[at].1]);
            }
            self.rows.push(Row::new(SCOPES, &numbers).bits(bits));
        }
        late
    }

    /// Tables 19 to 22.
    fn global_lists(&mut self) -> Vec<Row> {
        let actions = self.plan.actions.len() as u64;
        let mut late = Vec::new();
        self.plain_list(19, actions, 0, &mut late);
        self.plain_list(20, actions, 0, &mut late);
        if actions > 0 {
            for [level, reaction] in self.run() {
                late.push(Row::new(21, &[level, reaction, self.rng.below(actions)]));
            }
        }
        for action in 0..actions {
            if self.rng.chance(1, 2) {
                late.push(Row::new(22, &[action]));
            }
        }
        late
    }

    fn routes(&mut self, texts: &mut Texts, routes: &[Route]) -> Vec<Row> {
        let mut rows = Vec::new();
        for route in routes {
            let (house, start, length) = texts.place(self.rng, &route.boundary);
            let port = self.rng.below(self.plan.ports);
            let second = route.outbound as u8 | (route.physical as u8) << 1;
            let numbers = [start, length, port, route.delay];
            rows.push(Row::new(ROUTES, &numbers).bits(house).second(second));
        }
        rows
    }

    fn bindings(&mut self, texts: &mut Texts) -> Vec<Row> {
        let names = names(self.rng, self.plan.bindings.len());
        let kinds = self.plan.bindings.clone();
        let place = |(name, kind): (&Vec<u8>, u8)| {
            let (house, start, length) = texts.place(self.rng, name);
            Row::new(BINDINGS, &[start, length]).bits(house).second(kind)
        };
        names.iter().zip(kinds).map(place).collect()
    }

    fn delay(&mut self) -> u64 {
        self.rng.pick(&[0, 1, 2, 1000, u64::MAX])
    }

    /// A list of keys below `keys` in no order, and a range of it for each owner.
    fn plain_list(&mut self, table: u8, keys: u64, owners: usize, late: &mut Vec<Row>) -> Vec<Range> {
        let length = if keys == 0 { 0 } else { self.rng.between(0, 2 * self.plan.size.entries) };
        for _ in 0..length {
            let key = self.rng.below(keys);
            let delayed = matches!(table, 15 | 19 | 20);
            let numbers = [key, if delayed { self.delay() } else { 0 }];
            late.push(Row::new(table, &numbers[..1 + delayed as usize]));
        }
        self.ranges(owners, &[(0, length)], length as usize)
    }

    /// A list of rising runs, and a range inside one of them for each owner.
    fn level_list(&mut self, table: u8, owners: usize, late: &mut Vec<Row>) -> Vec<Range> {
        let actions = self.plan.actions.len() as u64;
        if table != 16 && actions == 0 {
            return vec![(0, 0); owners];
        }
        let (entries, runs) = self.level_runs();
        for [level, reaction] in &entries {
            late.push(match table {
                16 => Row::new(table, &[*level, *reaction]),
                _ => Row::new(table, &[*level, *reaction, self.rng.below(actions)]),
            });
        }
        self.ranges(owners, &runs, entries.len())
    }

    /// Level and reaction of some reactions, rising.
    fn run(&mut self) -> Vec<[u64; 2]> {
        let mut run = Vec::new();
        for (at, reaction) in self.plan.reactions.iter().enumerate() {
            if self.rng.chance(2, 3) {
                run.push([reaction.level, at as u64]);
            }
        }
        run.sort();
        run
    }

    /// Some runs one after another, with where each starts and ends.
    fn level_runs(&mut self) -> (Vec<[u64; 2]>, Vec<Range>) {
        let mut entries = Vec::new();
        let mut runs = Vec::new();
        for _ in 0..self.rng.between(0, self.plan.size.entries) {
            let start = entries.len() as u64;
            entries.extend(self.run());
            runs.push((start, entries.len() as u64));
        }
        (entries, runs)
    }

    /// Ranges in rising order, each inside one of the runs, which are starts and ends.
    fn ranges(&mut self, owners: usize, runs: &[Range], total: usize) -> Vec<Range> {
        let mut end = 0;
        let mut ranges = Vec::new();
        for _ in 0..owners {
            let run = runs.iter().find(|run| run.1 > end && self.rng.chance(3, 4));
            let (start, most) = match run {
                Some(run) => (run.0.max(end), run.1),
                None if self.rng.chance(1, 8) => (total as u64, total as u64),
                None => (end, end),
            };
            let length = self.rng.between(0, most - start);
            ranges.push((start, length));
            end = start + length;
        }
        ranges
    }
}
