//! What a grown station consists of, before its rows are written.
use crate::rng::Rng;
use pack::layout::SHUTDOWN;

/// Upper bounds for the parts of a grown station.
#[derive(Clone, Copy)]
pub struct Size {
    pub reactors: u64,
    pub modes: u64,
    pub scopes: u64,
    pub actions: u64,
    pub ports: u64,
    pub reactions: u64,
    pub entries: u64,
}

pub const SMALL: Size =
    Size { reactors: 2, modes: 2, scopes: 1, actions: 3, ports: 2, reactions: 3, entries: 2 };

pub struct Scope {
    pub reactor: u64,
    pub mode: Option<u64>,
    pub parent: Option<u64>,
}

pub struct Reaction {
    pub reactor: u64,
    pub scope: u64,
    pub level: u64,
}

/// Who belongs to whom. Rows are numbered by their places in these lists.
pub struct Plan {
    pub size: Size,
    pub spans: Vec<(u64, u64)>,
    /// The reactor of each mode.
    pub modes: Vec<u64>,
    pub scopes: Vec<Scope>,
    /// The kind of each action.
    pub actions: Vec<u8>,
    pub ports: u64,
    pub reactions: Vec<Reaction>,
    /// The kind of each binding.
    pub bindings: Vec<u8>,
}

impl Plan {
    pub fn new(rng: &mut Rng, size: Size, routes: bool) -> Self {
        let (spans, modes) = modes(rng, size);
        let scopes = scopes(rng, size, spans.len() as u64, &modes);
        let actions: Vec<u8> =
            (0..rng.between(0, size.actions)).map(|_| rng.below(u64::from(SHUTDOWN) + 1) as u8).collect();
        let ports = rng.between(routes as u64, size.ports);
        let reactions = (0..rng.between(0, size.reactions)).map(|_| reaction(rng, &scopes)).collect();
        let mut plan = Plan { size, spans, modes, scopes, actions, ports, reactions, bindings: vec![] };
        plan.bindings = bindings(rng, &plan);
        plan
    }

    /// The modes of one reactor.
    pub fn modes_of(&self, reactor: u64) -> Vec<u64> {
        let (start, length) = self.spans[reactor as usize];
        (start..start + length).collect()
    }

    /// Some binding of this kind.
    pub fn binding(&self, rng: &mut Rng, kind: u8) -> u64 {
        let of_kind: Vec<usize> = (0..self.bindings.len()).filter(|at| self.bindings[*at] == kind).collect();
        rng.pick(&of_kind) as u64
    }

    /// The scope that the test picks out, if any.
    pub fn scope_where(&self, test: impl Fn(&Scope) -> bool) -> u64 {
        self.scopes.iter().position(test).expect("the plan has it") as u64
    }
}

fn modes(rng: &mut Rng, size: Size) -> (Vec<(u64, u64)>, Vec<u64>) {
    let mut modes = Vec::new();
    let mut spans = Vec::new();
    for reactor in 0..rng.between(1, size.reactors) {
        let length = rng.between(0, size.modes);
        spans.push((modes.len() as u64, length));
        modes.extend((0..length).map(|_| reactor));
    }
    (spans, modes)
}

/// A root for each reactor, one for each mode, some more; in any order, under any parents.
fn scopes(rng: &mut Rng, size: Size, reactors: u64, modes: &[u64]) -> Vec<Scope> {
    let scope = |reactor, mode| Scope { reactor, mode, parent: None };
    let mut scopes: Vec<Scope> = (0..reactors).map(|reactor| scope(reactor, None)).collect();
    scopes.extend(modes.iter().enumerate().map(|(mode, reactor)| scope(*reactor, Some(mode as u64))));
    for _ in 0..rng.between(0, size.scopes) {
        scopes.push(scope(rng.below(reactors), None));
    }
    rng.shuffle(&mut scopes);
    let mut order: Vec<usize> = (0..scopes.len()).collect();
    if rng.chance(1, 2) {
        rng.shuffle(&mut order);
    }
    let chain = rng.chance(1, 4);
    for at in 1..order.len() {
        let parent = if chain { at - 1 } else { rng.place(at) };
        if chain || rng.chance(2, 3) {
            scopes[order[at]].parent = Some(order[parent] as u64);
        }
    }
    scopes
}

fn reaction(rng: &mut Rng, scopes: &[Scope]) -> Reaction {
    let scope = rng.place(scopes.len());
    Reaction { reactor: scopes[scope].reactor, scope: scope as u64, level: rng.between(0, 3) }
}

/// At least one binding of each kind that some row needs.
fn bindings(rng: &mut Rng, plan: &Plan) -> Vec<u8> {
    let mut kinds = vec![0];
    if !plan.reactions.is_empty() {
        kinds.push(1);
    }
    if plan.ports > 0 {
        kinds.push(2);
    }
    if plan.actions.iter().any(|kind| *kind < 2) {
        kinds.push(3);
    }
    for _ in 0..rng.between(0, 2) {
        kinds.push(rng.below(4) as u8);
    }
    rng.shuffle(&mut kinds);
    kinds
}
