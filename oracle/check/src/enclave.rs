//! One station's rows as boomerang's tables.
use crate::identities::Identities;
use boomerang_runtime::image::*;
use boomerang_runtime::CompiledModeEffectRef;
use pack::layout::{ACTIONS, BINDINGS, ENCLAVE, MODES, PORTS, REACTIONS, REACTORS, ROUTES, SCOPES};
use pack::row::Row;

/// The tables that an `EnclaveImage` borrows. It has none of deadlines: table 25 is left out.
pub struct Enclave<'a> {
    id: &'a str,
    bounds: StorageBounds,
    reactors: Vec<ReactorImage>,
    actions: Vec<ActionImage>,
    ports: Vec<PortImage>,
    reactions: Vec<ReactionImage>,
    modes: Vec<ModeImage>,
    scopes: Vec<ScopeImage>,
    /// Tables 8 and 16.
    levels: [Vec<LevelReactionImage>; 2],
    /// Tables 9 and 10.
    port_lists: [Vec<PortIndex>; 2],
    /// Tables 11, 14 and 22.
    action_lists: [Vec<ActionIndex>; 3],
    reaction_modes: Vec<ModeIndex>,
    scope_descendants: Vec<ScopeIndex>,
    /// Tables 15, 19 and 20.
    startups: [Vec<TimerStartupImage>; 3],
    /// Tables 17, 18 and 21.
    lifecycles: [Vec<LifecycleReactionImage>; 3],
    routes: Vec<RouteImage<'a>>,
    bindings: Vec<RequiredBindingImage<'a>>,
}

impl<'a> Enclave<'a> {
    pub fn of(rows: &[Row], identities: &'a Identities) -> Self {
        let mut of = Tables(rows);
        Enclave {
            id: identities.text(&rows[0], 0),
            bounds: of.table(ENCLAVE, bounds).remove(0),
            reactors: of.table(REACTORS, reactor),
            actions: of.table(ACTIONS, action),
            ports: of.table(PORTS, port),
            reactions: of.table(REACTIONS, reaction),
            modes: of.table(MODES, |row| ModeImage::new(reactor_key(row, 0), scope_key(row, 1))),
            scopes: of.table(SCOPES, scope),
            levels: [8, 16].map(|table| of.table(table, level)),
            port_lists: [9, 10].map(|table| of.table(table, |row| PortIndex::new(w(row, 0)))),
            action_lists: [11, 14, 22].map(|table| of.table(table, |row| action_key(row, 0))),
            reaction_modes: of.table(12, |row| mode_key(row, 0)),
            scope_descendants: of.table(13, |row| scope_key(row, 0)),
            startups: [15, 19, 20].map(|table| of.table(table, startup)),
            lifecycles: [17, 18, 21].map(|table| of.table(table, lifecycle)),
            routes: of.table(ROUTES, |row| route(row, identities)),
            bindings: of.table(BINDINGS, |row| binding(row, identities)),
        }
    }

    pub fn image(&self) -> EnclaveImage<'_> {
        EnclaveImage {
            enclave_id: EnclaveId::new(self.id),
            reactors: TinyMapRef::new(&self.reactors),
            actions: TinyMapRef::new(&self.actions),
            ports: TinyMapRef::new(&self.ports),
            reactions: TinyMapRef::new(&self.reactions),
            modes: TinyMapRef::new(&self.modes),
            scopes: TinyMapRef::new(&self.scopes),
            reaction_triggers: &self.levels[0],
            reaction_use_ports: &self.port_lists[0],
            reaction_effect_ports: &self.port_lists[1],
            reaction_actions: &self.action_lists[0],
            reaction_modes: &self.reaction_modes,
            scope_descendants: &self.scope_descendants,
            scope_logical_actions: &self.action_lists[1],
            scope_timer_startups: &self.startups[0],
            scope_reset_reactions: &self.levels[1],
            scope_startup_reactions: &self.lifecycles[0],
            scope_shutdown_reactions: &self.lifecycles[1],
            startup_actions: &self.startups[1],
            timer_startup_actions: &self.startups[2],
            shutdown_reactions: &self.lifecycles[2],
            shutdown_actions: &self.action_lists[2],
            routes: TinyMapRef::new(&self.routes),
            required_bindings: TinyMapRef::new(&self.bindings),
            storage_bounds: &self.bounds,
        }
    }
}

/// A station's rows, in rising order of their tables.
struct Tables<'r>(&'r [Row]);

impl<'r> Tables<'r> {
    fn table<T>(&mut self, table: u8, read: impl Fn(&'r Row) -> T) -> Vec<T> {
        let start = self.0.partition_point(|row| row.table < table);
        let end = self.0.partition_point(|row| row.table <= table);
        self.0[start..end].iter().map(read).collect()
    }
}

fn w(row: &Row, at: usize) -> u32 {
    u32::try_from(row.numbers[at]).expect("a W")
}

fn present<T>(row: &Row, at: usize, key: impl Fn(&Row, usize) -> T) -> Option<T> {
    row.present(at).then(|| key(row, at))
}

fn reactor_key(row: &Row, at: usize) -> ReactorIndex {
    ReactorIndex::new(w(row, at))
}

fn scope_key(row: &Row, at: usize) -> ScopeIndex {
    ScopeIndex::new(w(row, at))
}

fn mode_key(row: &Row, at: usize) -> ModeIndex {
    ModeIndex::new(w(row, at))
}

fn action_key(row: &Row, at: usize) -> ActionIndex {
    ActionIndex::new(w(row, at))
}

fn binding_key(row: &Row, at: usize) -> BindingSlotIndex {
    BindingSlotIndex::new(w(row, at))
}

fn range<T>(row: &Row, at: usize) -> SliceRange<T> {
    SliceRange::new(w(row, at), w(row, at + 1))
}

fn bounds(row: &Row) -> StorageBounds {
    let n = &row.numbers;
    StorageBounds::new(w(row, 2), w(row, 3), w(row, 4), n[5], n[6], n[7])
}

fn reactor(row: &Row) -> ReactorImage {
    ReactorImage::new(
        binding_key(row, 0),
        StateSlotIndex::new(w(row, 1)),
        scope_key(row, 2),
        IndexSpan::new(row.numbers[3] as usize, row.numbers[4] as usize),
        present(row, 5, mode_key),
        present(row, 6, |row, at| BankInfoImage::new(w(row, at), w(row, at + 1))),
    )
}

fn action(row: &Row) -> ActionImage {
    let standard = |domain| ActionTiming::Standard { domain, min_delay_nanos: row.numbers[3] };
    let timing = match row.second {
        0 => standard(TimingDomain::Logical),
        1 => standard(TimingDomain::Physical),
        2 => ActionTiming::Timer { period_nanos: present(row, 3, |row, at| row.numbers[at]) },
        _ => ActionTiming::Shutdown,
    };
    let slot = ActionSlotIndex::new(w(row, 1));
    ActionImage::new(scope_key(row, 0), slot, timing, range(row, 4), present(row, 2, binding_key))
}

fn port(row: &Row) -> PortImage {
    PortImage::new(scope_key(row, 1), range(row, 2), binding_key(row, 0))
}

fn reaction(row: &Row) -> ReactionImage {
    let reaction = ReactionImage::new(
        reactor_key(row, 0),
        scope_key(row, 1),
        w(row, 2),
        binding_key(row, 3),
        range(row, 4),
        range(row, 6),
        range(row, 8),
        range(row, 10),
    )
    .with_external_effect(row.bits & 1 == 1);
    match present(row, 12, mode_key) {
        Some(target) => reaction.with_mode_effect(CompiledModeEffectRef { target, history: row.second == 1 }),
        None => reaction,
    }
}

fn scope(row: &Row) -> ScopeImage {
    ScopeImage::new(
        present(row, 0, scope_key),
        reactor_key(row, 1),
        present(row, 2, mode_key),
        range(row, 3),
        range(row, 5),
        range(row, 7),
        range(row, 9),
        range(row, 11),
        range(row, 13),
    )
}

fn level(row: &Row) -> LevelReactionImage {
    LevelReactionImage::new(w(row, 0), ReactionIndex::new(w(row, 1)))
}

fn startup(row: &Row) -> TimerStartupImage {
    TimerStartupImage::new(action_key(row, 0), row.numbers[1])
}

fn lifecycle(row: &Row) -> LifecycleReactionImage {
    LifecycleReactionImage::new(level(row), action_key(row, 2))
}

fn route<'a>(row: &Row, identities: &'a Identities) -> RouteImage<'a> {
    let boundary = BoundaryId::new(identities.text(row, 0));
    let direction = match row.second & 1 {
        0 => RouteDirection::Inbound,
        _ => RouteDirection::Outbound,
    };
    let domain = match row.second & 2 {
        0 => TimingDomain::Logical,
        _ => TimingDomain::Physical,
    };
    RouteImage::new(boundary, PortIndex::new(w(row, 2)), direction, domain, row.numbers[3])
}

fn binding<'a>(row: &Row, identities: &'a Identities) -> RequiredBindingImage<'a> {
    let kind = match row.second {
        0 => BindingKind::StateInitializer,
        1 => BindingKind::Reaction,
        2 => BindingKind::Port,
        _ => BindingKind::Action,
    };
    RequiredBindingImage::new(BindingSlotId::new(identities.text(row, 0)), kind)
}
