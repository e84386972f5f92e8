//! A pack as boomerang's tables, read straight from its records; the packing rules are left out.
use boomerang_runtime::image::*;
use boomerang_runtime::CompiledModeEffectRef;
use pack::corpus::Case;
use pack::layout::{
    ACTIONS, BINDINGS, DEADLINES, ENCLAVE, FEDERATE, MODES, PORTS, REACTIONS, REACTORS, ROUTES, SCOPES,
    TABLES,
};
use pack::RECORD;
use tinymap::Key;

type Record = [u8; RECORD];

/// How many rows of each table there are.
type Lengths = [usize; TABLES.len()];

/// The lent texts.
#[derive(Clone, Copy)]
struct Texts<'a> {
    batch: &'a [u8],
    house: &'a [u8],
}

struct Station<'a> {
    id: &'a str,
    bounds: StorageBounds,
    /// Where its rows start in each table.
    from: Lengths,
}

/// A row of table 25, which boomerang's tables do not have.
struct Deadline {
    reaction: ReactionIndex,
    nanoseconds: u64,
}

/// The rows of all stations, table by table.
#[derive(Default)]
pub struct Tables<'a> {
    federate: Option<FederateImage<'a>>,
    stations: Vec<Station<'a>>,
    reactors: Vec<ReactorImage>,
    actions: Vec<ActionImage>,
    ports: Vec<PortImage>,
    reactions: Vec<ReactionImage>,
    modes: Vec<ModeImage>,
    scopes: Vec<ScopeImage>,
    reaction_triggers: Vec<LevelReactionImage>,
    reaction_use_ports: Vec<PortIndex>,
    reaction_effect_ports: Vec<PortIndex>,
    reaction_actions: Vec<ActionIndex>,
    reaction_modes: Vec<ModeIndex>,
    scope_descendants: Vec<ScopeIndex>,
    scope_logical_actions: Vec<ActionIndex>,
    scope_timer_startups: Vec<TimerStartupImage>,
    scope_reset_reactions: Vec<LevelReactionImage>,
    scope_startup_reactions: Vec<LifecycleReactionImage>,
    scope_shutdown_reactions: Vec<LifecycleReactionImage>,
    startup_actions: Vec<TimerStartupImage>,
    timer_startup_actions: Vec<TimerStartupImage>,
    shutdown_reactions: Vec<LifecycleReactionImage>,
    shutdown_actions: Vec<ActionIndex>,
    routes: Vec<RouteImage<'a>>,
    required_bindings: Vec<RequiredBindingImage<'a>>,
    deadlines: Vec<Deadline>,
    lengths: Lengths,
}

impl<'a> Tables<'a> {
    /// None where a table is unknown, or an identity outside its text or no `str`.
    pub fn of(case: &'a Case) -> Option<Self> {
        let texts = Texts { batch: &case.batch, house: &case.house };
        let (mut records, _) = case.pack.as_chunks::<RECORD>();
        let mut tables = Tables::default();
        while let Some(first) = records.first() {
            let table = first[0];
            let run = records.iter().position(|record| record[0] != table).unwrap_or(records.len());
            tables.add(table, &records[..run], texts)?;
            tables.lengths[table as usize] += run;
            records = &records[run..];
        }
        Some(tables)
    }

    /// Rows of one table.
    fn add(&mut self, table: u8, run: &[Record], texts: Texts<'a>) -> Option<()> {
        match table {
            FEDERATE => self.federate = Some(federate(&run[0], texts)?),
            ENCLAVE => self.add_stations(run, texts)?,
            REACTORS => self.reactors.extend(run.iter().map(reactor)),
            ACTIONS => self.actions.extend(run.iter().map(action)),
            PORTS => self.ports.extend(run.iter().map(port)),
            REACTIONS => self.reactions.extend(run.iter().map(reaction)),
            MODES => self.modes.extend(run.iter().map(mode)),
            SCOPES => self.scopes.extend(run.iter().map(scope)),
            8 => self.reaction_triggers.extend(run.iter().map(level)),
            9 => self.reaction_use_ports.extend(run.iter().map(port_key)),
            10 => self.reaction_effect_ports.extend(run.iter().map(port_key)),
            11 => self.reaction_actions.extend(run.iter().map(action_key)),
            12 => self.reaction_modes.extend(run.iter().map(|record| ModeIndex::new(w(record, 4)))),
            13 => self.scope_descendants.extend(run.iter().map(|record| ScopeIndex::new(w(record, 4)))),
            14 => self.scope_logical_actions.extend(run.iter().map(action_key)),
            15 => self.scope_timer_startups.extend(run.iter().map(startup)),
            16 => self.scope_reset_reactions.extend(run.iter().map(level)),
            17 => self.scope_startup_reactions.extend(run.iter().map(lifecycle)),
            18 => self.scope_shutdown_reactions.extend(run.iter().map(lifecycle)),
            19 => self.startup_actions.extend(run.iter().map(startup)),
            20 => self.timer_startup_actions.extend(run.iter().map(startup)),
            21 => self.shutdown_reactions.extend(run.iter().map(lifecycle)),
            22 => self.shutdown_actions.extend(run.iter().map(action_key)),
            ROUTES => add(&mut self.routes, run, |record| route(record, texts))?,
            BINDINGS => add(&mut self.required_bindings, run, |record| binding(record, texts))?,
            DEADLINES => self.deadlines.extend(run.iter().map(deadline)),
            _ => return None,
        }
        Some(())
    }

    fn add_stations(&mut self, run: &[Record], texts: Texts<'a>) -> Option<()> {
        let from = self.lengths;
        add(&mut self.stations, run, |record| {
            Some(Station { id: identity(record, 4, 0, texts)?, bounds: bounds(record), from })
        })
    }

    /// A federate's own row; none for an enclave.
    pub fn federate(&self) -> Option<&FederateImage<'a>> {
        self.federate.as_ref()
    }

    pub fn images(&self) -> Vec<EnclaveImage<'_>> {
        (0..self.stations.len()).map(|station| self.image(station)).collect()
    }

    /// Whether each deadline names a reaction of its station, in rising order, and none is zero: what the Rust's check
    /// does not ask.
    pub fn deadlines_pass(&self) -> bool {
        self.deadlines.is_empty() || (0..self.stations.len()).all(|station| self.deadlines_of_pass(station))
    }

    fn deadlines_of_pass(&self, station: usize) -> bool {
        let from = &self.stations[station].from;
        let to = self.stations.get(station + 1).map_or(&self.lengths, |next| &next.from);
        let [reactions, deadlines] =
            [REACTIONS, DEADLINES].map(|table| from[table as usize]..to[table as usize]);
        let (reactions, deadlines) = (reactions.len(), &self.deadlines[deadlines]);
        deadlines.iter().all(|row| (row.reaction.as_u32() as usize) < reactions && row.nanoseconds != 0)
            && deadlines.windows(2).all(|rows| rows[0].reaction.as_u32() < rows[1].reaction.as_u32())
    }

    pub fn image(&self, station: usize) -> EnclaveImage<'_> {
        let Station { id, bounds, from } = &self.stations[station];
        let to = self.stations.get(station + 1).map_or(&self.lengths, |next| &next.from);
        let at = |table: u8| from[table as usize]..to[table as usize];
        EnclaveImage {
            enclave_id: EnclaveId::new(id),
            reactors: TinyMapRef::new(&self.reactors[at(REACTORS)]),
            actions: TinyMapRef::new(&self.actions[at(ACTIONS)]),
            ports: TinyMapRef::new(&self.ports[at(PORTS)]),
            reactions: TinyMapRef::new(&self.reactions[at(REACTIONS)]),
            modes: TinyMapRef::new(&self.modes[at(MODES)]),
            scopes: TinyMapRef::new(&self.scopes[at(SCOPES)]),
            reaction_triggers: &self.reaction_triggers[at(8)],
            reaction_use_ports: &self.reaction_use_ports[at(9)],
            reaction_effect_ports: &self.reaction_effect_ports[at(10)],
            reaction_actions: &self.reaction_actions[at(11)],
            reaction_modes: &self.reaction_modes[at(12)],
            scope_descendants: &self.scope_descendants[at(13)],
            scope_logical_actions: &self.scope_logical_actions[at(14)],
            scope_timer_startups: &self.scope_timer_startups[at(15)],
            scope_reset_reactions: &self.scope_reset_reactions[at(16)],
            scope_startup_reactions: &self.scope_startup_reactions[at(17)],
            scope_shutdown_reactions: &self.scope_shutdown_reactions[at(18)],
            startup_actions: &self.startup_actions[at(19)],
            timer_startup_actions: &self.timer_startup_actions[at(20)],
            shutdown_reactions: &self.shutdown_reactions[at(21)],
            shutdown_actions: &self.shutdown_actions[at(22)],
            routes: TinyMapRef::new(&self.routes[at(ROUTES)]),
            required_bindings: TinyMapRef::new(&self.required_bindings[at(BINDINGS)]),
            storage_bounds: bounds,
        }
    }
}

/// Rows that may fail to be read.
fn add<T>(to: &mut Vec<T>, run: &[Record], read: impl Fn(&Record) -> Option<T>) -> Option<()> {
    to.reserve(run.len());
    for record in run {
        to.push(read(record)?);
    }
    Some(())
}

fn w(record: &Record, at: usize) -> u32 {
    u32::from_be_bytes([record[at], record[at + 1], record[at + 2], record[at + 3]])
}

fn d(record: &Record, at: usize) -> u64 {
    u64::from(w(record, at)) << 32 | u64::from(w(record, at + 4))
}

fn range<T>(record: &Record, at: usize) -> SliceRange<T> {
    SliceRange::new(w(record, at), w(record, at + 4))
}

fn span<K: Key>(record: &Record, at: usize) -> IndexSpan<K> {
    IndexSpan::new(d(record, at) as usize, d(record, at + 8) as usize)
}

/// What stands under a presence bit of byte 1.
fn present<T>(record: &Record, bit: u8, value: T) -> Option<T> {
    (record[1] >> bit & 1 == 1).then_some(value)
}

fn identity<'a>(record: &Record, at: usize, bit: u8, texts: Texts<'a>) -> Option<&'a str> {
    let text = if record[1] >> bit & 1 == 1 { texts.house } else { texts.batch };
    let start = w(record, at) as usize;
    let part = text.get(start..start + w(record, at + 4) as usize)?;
    std::str::from_utf8(part).ok()
}

fn federate<'a>(record: &Record, texts: Texts<'a>) -> Option<FederateImage<'a>> {
    Some(FederateImage::new(
        FederateId::new(identity(record, 4, 0, texts)?),
        TargetId::new(identity(record, 12, 1, texts)?),
        RuntimeBackendId::new(identity(record, 20, 2, texts)?),
        span(record, 28),
    ))
}

fn bounds(record: &Record) -> StorageBounds {
    let [states, actions, events] = [12, 16, 20].map(|at| w(record, at));
    StorageBounds::new(states, actions, events, d(record, 24), d(record, 32), d(record, 40))
}

fn reactor(record: &Record) -> ReactorImage {
    ReactorImage::new(
        BindingSlotIndex::new(w(record, 4)),
        StateSlotIndex::new(w(record, 8)),
        ScopeIndex::new(w(record, 12)),
        span(record, 16),
        present(record, 0, ModeIndex::new(w(record, 32))),
        present(record, 1, BankInfoImage::new(w(record, 36), w(record, 40))),
    )
}

fn action(record: &Record) -> ActionImage {
    let number = d(record, 16);
    let timing = match record[2] {
        0 => ActionTiming::Standard { domain: TimingDomain::Logical, min_delay_nanos: number },
        1 => ActionTiming::Standard { domain: TimingDomain::Physical, min_delay_nanos: number },
        2 => ActionTiming::Timer { period_nanos: present(record, 1, number) },
        _ => ActionTiming::Shutdown,
    };
    let binding = present(record, 0, BindingSlotIndex::new(w(record, 12)));
    let slot = ActionSlotIndex::new(w(record, 8));
    ActionImage::new(ScopeIndex::new(w(record, 4)), slot, timing, range(record, 24), binding)
}

fn port(record: &Record) -> PortImage {
    let binding = BindingSlotIndex::new(w(record, 4));
    PortImage::new(ScopeIndex::new(w(record, 8)), range(record, 12), binding)
}

fn reaction(record: &Record) -> ReactionImage {
    let reaction = ReactionImage::new(
        ReactorIndex::new(w(record, 4)),
        ScopeIndex::new(w(record, 8)),
        w(record, 12),
        BindingSlotIndex::new(w(record, 16)),
        range(record, 20),
        range(record, 28),
        range(record, 36),
        range(record, 44),
    )
    .with_external_effect(record[1] & 1 == 1);
    match present(record, 1, ModeIndex::new(w(record, 52))) {
        Some(target) => reaction.with_mode_effect(CompiledModeEffectRef { target, history: record[2] == 1 }),
        None => reaction,
    }
}

fn mode(record: &Record) -> ModeImage {
    ModeImage::new(ReactorIndex::new(w(record, 4)), ScopeIndex::new(w(record, 8)))
}

fn scope(record: &Record) -> ScopeImage {
    ScopeImage::new(
        present(record, 0, ScopeIndex::new(w(record, 4))),
        ReactorIndex::new(w(record, 8)),
        present(record, 1, ModeIndex::new(w(record, 12))),
        range(record, 16),
        range(record, 24),
        range(record, 32),
        range(record, 40),
        range(record, 48),
        range(record, 56),
    )
}

fn level(record: &Record) -> LevelReactionImage {
    LevelReactionImage::new(w(record, 4), ReactionIndex::new(w(record, 8)))
}

fn port_key(record: &Record) -> PortIndex {
    PortIndex::new(w(record, 4))
}

fn action_key(record: &Record) -> ActionIndex {
    ActionIndex::new(w(record, 4))
}

fn startup(record: &Record) -> TimerStartupImage {
    TimerStartupImage::new(action_key(record), d(record, 8))
}

fn lifecycle(record: &Record) -> LifecycleReactionImage {
    LifecycleReactionImage::new(level(record), ActionIndex::new(w(record, 12)))
}

fn deadline(record: &Record) -> Deadline {
    Deadline { reaction: ReactionIndex::new(w(record, 4)), nanoseconds: d(record, 8) }
}

fn route<'a>(record: &Record, texts: Texts<'a>) -> Option<RouteImage<'a>> {
    let boundary = BoundaryId::new(identity(record, 4, 0, texts)?);
    let direction = match record[2] & 1 {
        0 => RouteDirection::Inbound,
        _ => RouteDirection::Outbound,
    };
    let domain = match record[2] & 2 {
        0 => TimingDomain::Logical,
        _ => TimingDomain::Physical,
    };
    Some(RouteImage::new(boundary, PortIndex::new(w(record, 12)), direction, domain, d(record, 16)))
}

fn binding<'a>(record: &Record, texts: Texts<'a>) -> Option<RequiredBindingImage<'a>> {
    let kind = match record[2] {
        0 => BindingKind::StateInitializer,
        1 => BindingKind::Reaction,
        2 => BindingKind::Port,
        _ => BindingKind::Action,
    };
    Some(RequiredBindingImage::new(BindingSlotId::new(identity(record, 4, 0, texts)?), kind))
}
