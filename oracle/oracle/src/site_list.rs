//! Every site, in the order of the rules, of view.rs and of the deadlines, with the reason where none can be met.
use pack::layout::{Present, Second, Shape, Table, TABLES};

pub struct Site {
    pub name: String,
    /// Why no pack meets it.
    pub never: Option<&'static str>,
}

const ROW_FIRST: &str = "the scope rows have checked every parent";
const LIST_FIRST: &str = "the pass over the whole of reaction_modes comes first";
const STATION_FIRST: &str = "the station check has checked the identity";
const MODES_FIRST: &str = "the mode rows come first: a mode whose scope this is has its reactor";

pub fn all() -> Vec<Site> {
    let mut sites = packing();
    sites.extend(line_head());
    sites.extend(rows());
    sites.extend(lists());
    sites.extend(tail());
    sites
}

fn met(name: impl Into<String>) -> Site {
    Site { name: name.into(), never: None }
}

fn never(name: impl Into<String>, reason: &'static str) -> Site {
    Site { name: name.into(), never: Some(reason) }
}

/// Sites for each of the words in a list.
fn each(words: &str) -> Vec<Site> {
    words.lines().map(|line| met(line.trim())).filter(|site| !site.name.is_empty()).collect()
}

fn packing() -> Vec<Site> {
    let mut sites = each(
        "01 empty
         01 over the limit
         01 no multiple of 64
         02 batch
         02 house
         03 unknown table
         03 wrong first record
         03 out of place",
    );
    for table in &TABLES {
        sites.extend(strays(table).iter().map(|why| met(format!("04 {}: {why}", table.name))));
        if table.fields.iter().any(|field| matches!(field.shape, Shape::Identity(_))) {
            sites.push(met(format!("05 {}: outside its text", table.name)));
            sites.extend(UTF8.iter().map(|why| met(format!("06 {}: {why}", table.name))));
        }
    }
    sites
}

/// The ways in which records of a table can be refused with 4.
fn strays(table: &Table) -> Vec<&'static str> {
    let mut ways = vec!["stray bit"];
    ways.extend(match table.second {
        Second::Zero => &["byte 2"][..],
        Second::Kinds(_) => &["kind"],
        Second::Bits(_) => &["stray bit of byte 2"],
        Second::Transition => &["kind", "history without effect"],
    });
    if table.name == "actions" {
        ways.push("period bit on no timer");
    }
    ways.push("byte 3");
    if table.fields.iter().any(|field| field.present != Present::Always) {
        ways.push("absent field");
    }
    if table.name != "scopes" {
        ways.push("stray byte");
    }
    ways
}

const UTF8: [&str; 8] = [
    "following byte in front",
    "C0 or C1",
    "F5 to FF",
    "cut off at the end",
    "no following byte",
    "longer than need be",
    "surrogate",
    "over 10FFFF",
];

/// `19` for one kind of identity.
fn invalid(kind: &str) -> Vec<Site> {
    ["empty", "control", "white space in front", "white space behind"]
        .iter()
        .map(|why| met(format!("19 {kind}: {why}")))
        .collect()
}

fn line_head() -> Vec<Site> {
    let mut sites = Vec::new();
    for kind in ["federate", "target", "runtime"] {
        sites.extend(invalid(kind));
    }
    sites.extend(each(
        "13 federate.enclaves: end too large
         13 federate.enclaves: end past 64 bits
         17 federate.enclaves",
    ));
    sites.push(met("12 enclave.root_reactor"));
    sites.extend(invalid("enclave"));
    sites
}

const REACTORS: &str = "12 reactors.state_binding
    24 reactors.state_binding
    23 reactors
    12 reactors.root_scope
    17 reactors.root_scope: of another reactor
    17 reactors.root_scope: has a mode
    13 reactors.modes: end too large
    13 reactors.modes: end past 64 bits
    14 reactors.modes
    12 reactors.initial_mode
    17 reactors.initial_mode
    22 reactors.bank: total 0
    22 reactors.bank: index not below total";

const ACTIONS: &str = "12 actions.scope
    23 actions
    12 actions.binding
    24 actions.binding
    25 actions.binding: standard without
    25 actions.binding: timer with
    25 actions.binding: shutdown with";

const PORTS: &str = "12 ports.binding
    24 ports.binding
    12 ports.scope";

const REACTIONS: &str = "12 reactions.reactor
    12 reactions.scope
    12 reactions.binding
    24 reactions.binding
    17 reactions.scope.reactor
    12 reactions.mode_effect.target
    17 reactions.mode_effect.target.reactor";

const MODES: &str = "12 modes.reactor
    12 modes.scope
    17 modes.scope.reactor
    17 modes.scope.mode: no mode
    17 modes.scope.mode: another mode
    17 modes.reactor.modes";

const SCOPES: &str = "12 scopes.reactor
    12 scopes.parent
    12 scopes.mode
    17 scopes.mode: scope of the mode";

const SCOPE_RANGES: [&str; 6] = [
    "descendants",
    "logical_actions",
    "timer_startups",
    "reset_reactions",
    "startup_reactions",
    "shutdown_reactions",
];

fn rows() -> Vec<Site> {
    let mut sites = each(REACTORS);
    sites.extend(each(ACTIONS));
    sites.extend(ranges("actions", &["triggers"]));
    sites.extend(each(PORTS));
    sites.extend(ranges("ports", &["triggers"]));
    sites.extend(each(REACTIONS));
    sites.extend(ranges("reactions", &["use_ports", "effect_ports", "actions", "enabled_modes"]));
    sites.extend(each(MODES));
    sites.extend(each(SCOPES));
    sites.push(never("17 scopes.mode: reactor of the mode", MODES_FIRST));
    sites.extend(ranges("scopes", &SCOPE_RANGES));
    sites.push(never("12 scopes.parent, in the walk", ROW_FIRST));
    sites.push(met("18 scopes"));
    sites
}

/// `13` and `14` for ranges of one table.
fn ranges(table: &str, fields: &[&str]) -> Vec<Site> {
    let mut sites = Vec::new();
    for field in fields {
        sites.push(met(format!("13 {table}.{field}")));
        sites.push(met(format!("14 {table}.{field}")));
    }
    sites
}

/// Sites of one list in one pass over it; pairs of entries are compared inside ranges only.
fn list_pass(table: &str, lifecycle: bool, pass: &str) -> Vec<Site> {
    let mut names = Vec::new();
    if lifecycle {
        names.push(format!("12 {table}.action"));
    }
    names.push(format!("12 {table}.reaction"));
    names.push(format!("17 {table}.dependency_level"));
    if pass != ": whole table" {
        names.push(format!("16 {table}"));
        names.push(format!("15 {table}"));
    }
    names.iter().map(|name| met(format!("{name}{pass}"))).collect()
}

fn lists() -> Vec<Site> {
    let mut sites = list_pass("reaction_triggers", false, ": action triggers");
    sites.extend(list_pass("reaction_triggers", false, ": port triggers"));
    sites.extend(each(
        "12 reaction_use_ports.port
         12 reaction_effect_ports.port
         12 reaction_actions.action
         12 reaction_modes.mode",
    ));
    sites.push(never("12 reaction_modes.mode, of a reaction", LIST_FIRST));
    sites.extend(each(
        "17 reactions.enabled_modes.reactor
         12 scope_descendants.scope
         12 scope_logical_actions.action
         12 scope_timer_startups.action",
    ));
    let of_scopes = [
        ("scope_reset_reactions", false),
        ("scope_startup_reactions", true),
        ("scope_shutdown_reactions", true),
    ];
    for (table, lifecycle) in of_scopes {
        sites.extend(list_pass(table, lifecycle, ": scope list"));
    }
    sites.extend(list_pass("reaction_triggers", false, ": whole table"));
    for (table, lifecycle) in of_scopes {
        sites.extend(list_pass(table, lifecycle, ": whole table"));
    }
    sites
}

fn tail() -> Vec<Site> {
    let mut sites = each("12 startup_actions.action\n 12 timer_startup_actions.action");
    sites.extend(list_pass("shutdown_reactions", true, ""));
    sites.extend(each("12 shutdown_actions.action\n 16 shutdown_actions\n 15 shutdown_actions"));
    sites.extend(invalid("boundary"));
    sites.extend(each(
        "20 boundary
         27 inbound half, rows
         27 outbound half, rows
         15 routes
         12 routes.local_port",
    ));
    sites.extend(invalid("binding"));
    sites.extend(each("21 binding\n 20 binding"));
    sites.extend(each("12 deadlines.reaction\n 16 deadlines\n 15 deadlines\n 39 deadlines"));
    sites.push(never("19 enclave, of a line", STATION_FIRST));
    sites.extend(each(
        "21 enclave
         20 enclave
         27 inbound half, pairs
         27 outbound half, pairs
         28 timing_domain
         28 delay_nanos",
    ));
    sites
}
