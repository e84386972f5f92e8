//! The layout of the 26 kinds of record, as data (document 01, "The pack"; of deadlines document 02, Wish 12).
use std::sync::OnceLock;

/// What a field holds: one number, or two that belong together.
#[derive(Clone, Copy, PartialEq, Eq)]
pub enum Shape {
    W,
    D,
    /// W start, W length in the text that the bit of byte 1 names.
    Identity(u8),
    /// W start, W length in a table.
    Range,
    /// D start, D length in a table.
    Span,
}

/// When a field is present; an absent field is zero.
#[derive(Clone, Copy, PartialEq, Eq)]
pub enum Present {
    Always,
    /// Where this bit of byte 1 is 1.
    Bit(u8),
    /// A standard action, or a timer with a period.
    Delay,
}

/// What byte 2 may hold.
#[derive(Clone, Copy, PartialEq, Eq)]
pub enum Second {
    Zero,
    /// One of the first so many kinds.
    Kinds(u8),
    /// Any of these bits.
    Bits(u8),
    /// 1 only beside bit 1 of byte 1.
    Transition,
}

#[derive(Clone, Copy)]
pub struct Field {
    pub name: &'static str,
    pub shape: Shape,
    pub present: Present,
    /// The table that the numbers point into.
    pub to: Option<u8>,
}

impl Field {
    const fn on(mut self, bit: u8) -> Self {
        self.present = Present::Bit(bit);
        self
    }
}

pub struct Table {
    pub name: &'static str,
    /// The bits of byte 1 that have a meaning.
    pub bits: u8,
    pub second: Second,
    pub fields: &'static [Field],
}

const fn field(name: &'static str, shape: Shape, to: Option<u8>) -> Field {
    Field { name, shape, present: Present::Always, to }
}

const fn w(name: &'static str) -> Field {
    field(name, Shape::W, None)
}

const fn d(name: &'static str) -> Field {
    field(name, Shape::D, None)
}

const fn key(name: &'static str, table: u8) -> Field {
    field(name, Shape::W, Some(table))
}

const fn id(name: &'static str, bit: u8) -> Field {
    field(name, Shape::Identity(bit), None)
}

const fn range(name: &'static str, table: u8) -> Field {
    field(name, Shape::Range, Some(table))
}

const fn span(name: &'static str, table: u8) -> Field {
    field(name, Shape::Span, Some(table))
}

const DELAY: Field = Field { name: "delay or period", shape: Shape::D, present: Present::Delay, to: None };

pub const FEDERATE: u8 = 0;
pub const ENCLAVE: u8 = 1;
pub const REACTORS: u8 = 2;
pub const ACTIONS: u8 = 3;
pub const PORTS: u8 = 4;
pub const REACTIONS: u8 = 5;
pub const MODES: u8 = 6;
pub const SCOPES: u8 = 7;
pub const TRIGGERS: u8 = 8;
pub const ROUTES: u8 = 23;
pub const BINDINGS: u8 = 24;
pub const DEADLINES: u8 = 25;

/// Byte 2 of an action.
pub const TIMER: u8 = 2;
pub const SHUTDOWN: u8 = 3;

const fn table(name: &'static str, bits: u8, second: Second, fields: &'static [Field]) -> Table {
    Table { name, bits, second, fields }
}

const fn list(name: &'static str, fields: &'static [Field]) -> Table {
    table(name, 0, Second::Zero, fields)
}

const LEVEL: &[Field] = &[w("level"), key("reaction", REACTIONS)];
const STARTUP: &[Field] = &[key("action", ACTIONS), d("delay")];
const LIFECYCLE: &[Field] = &[w("level"), key("reaction", REACTIONS), key("action", ACTIONS)];
const PORT: &[Field] = &[key("port", PORTS)];
const ACTION: &[Field] = &[key("action", ACTIONS)];

pub const TABLES: [Table; 26] = [
    table(
        "federate",
        7,
        Second::Zero,
        &[id("id", 0), id("target", 1), id("runtime", 2), span("enclaves", ENCLAVE)],
    ),
    table(
        "enclave",
        1,
        Second::Zero,
        &[
            id("id", 0),
            w("state slots"),
            w("action slots"),
            w("event capacity"),
            d("payload bytes"),
            d("state bytes"),
            d("scratch bytes"),
        ],
    ),
    table(
        "reactors",
        3,
        Second::Zero,
        &[
            key("state_binding", BINDINGS),
            w("state slot"),
            key("root_scope", SCOPES),
            span("modes", MODES),
            key("initial_mode", MODES).on(0),
            w("bank index").on(1),
            w("bank total").on(1),
        ],
    ),
    table(
        "actions",
        3,
        Second::Kinds(4),
        &[
            key("scope", SCOPES),
            w("slot"),
            key("binding", BINDINGS).on(0),
            DELAY,
            range("triggers", TRIGGERS),
        ],
    ),
    table(
        "ports",
        0,
        Second::Zero,
        &[key("binding", BINDINGS), key("scope", SCOPES), range("triggers", TRIGGERS)],
    ),
    table(
        "reactions",
        3,
        Second::Transition,
        &[
            key("reactor", REACTORS),
            key("scope", SCOPES),
            w("level"),
            key("binding", BINDINGS),
            range("use_ports", 9),
            range("effect_ports", 10),
            range("actions", 11),
            range("enabled_modes", 12),
            key("mode_effect.target", MODES).on(1),
        ],
    ),
    list("modes", &[key("reactor", REACTORS), key("scope", SCOPES)]),
    table(
        "scopes",
        3,
        Second::Zero,
        &[
            key("parent", SCOPES).on(0),
            key("reactor", REACTORS),
            key("mode", MODES).on(1),
            range("descendants", 13),
            range("logical_actions", 14),
            range("timer_startups", 15),
            range("reset_reactions", 16),
            range("startup_reactions", 17),
            range("shutdown_reactions", 18),
        ],
    ),
    list("reaction_triggers", LEVEL),
    list("reaction_use_ports", PORT),
    list("reaction_effect_ports", PORT),
    list("reaction_actions", ACTION),
    list("reaction_modes", &[key("mode", MODES)]),
    list("scope_descendants", &[key("scope", SCOPES)]),
    list("scope_logical_actions", ACTION),
    list("scope_timer_startups", STARTUP),
    list("scope_reset_reactions", LEVEL),
    list("scope_startup_reactions", LIFECYCLE),
    list("scope_shutdown_reactions", LIFECYCLE),
    list("startup_actions", STARTUP),
    list("timer_startup_actions", STARTUP),
    list("shutdown_reactions", LIFECYCLE),
    list("shutdown_actions", ACTION),
    table("routes", 1, Second::Bits(3), &[id("boundary", 0), key("local_port", PORTS), d("delay")]),
    table("required_bindings", 1, Second::Kinds(4), &[id("id", 0)]),
    list("deadlines", &[key("reaction", REACTIONS), d("nanoseconds")]),
];

/// One number of a record: where it stands and whose it is.
#[derive(Clone, Copy)]
pub struct Number {
    pub field: &'static Field,
    /// 0 for the first number of its field, 1 for the second.
    pub part: u8,
    pub at: usize,
    pub bytes: usize,
}

/// The numbers of a table's records, in order from byte 4 without gaps.
pub fn numbers(table: u8) -> &'static [Number] {
    static ALL: OnceLock<Vec<Vec<Number>>> = OnceLock::new();
    let all = ALL.get_or_init(|| TABLES.iter().map(|table| place(table.fields)).collect());
    &all[table as usize]
}

fn place(fields: &'static [Field]) -> Vec<Number> {
    let mut placed = Vec::new();
    let mut at = 4;
    for field in fields {
        let (parts, bytes) = match field.shape {
            Shape::W => (1, 4),
            Shape::D => (1, 8),
            Shape::Identity(_) | Shape::Range => (2, 4),
            Shape::Span => (2, 8),
        };
        for part in 0..parts {
            placed.push(Number { field, part, at, bytes });
            at += bytes;
        }
    }
    placed
}

#[cfg(test)]
mod tests {
    /// Where the fields of each table end, counted by hand from documents 01 and 02.
    #[test]
    fn ends() {
        let ends: Vec<usize> = (0..super::TABLES.len() as u8)
            .map(|table| super::numbers(table).last().map(|last| last.at + last.bytes).unwrap())
            .collect();
        let by_hand =
            [44, 48, 44, 32, 20, 56, 12, 64, 12, 8, 8, 8, 8, 8, 8, 16, 12, 16, 16, 16, 16, 16, 8, 24, 12, 16];
        assert_eq!(ends, by_hand);
    }
}
