//! The names of documents 01 and 02 for fields, identity kinds and refusals.
use crate::layout::TABLES;

/// Document 01's field numbers, from 1.
pub const FIELDS: [&str; 35] = [
    "root_reactor",
    "state_binding",
    "root_scope",
    "modes",
    "initial_mode",
    "scope",
    "binding",
    "triggers",
    "reactor",
    "scope.reactor",
    "mode_effect.target",
    "mode_effect.target.reactor",
    "use_ports",
    "effect_ports",
    "actions",
    "enabled_modes",
    "scope.mode",
    "reactor.modes",
    "parent",
    "mode",
    "descendants",
    "logical_actions",
    "timer_startups",
    "reset_reactions",
    "startup_reactions",
    "shutdown_reactions",
    "reaction",
    "dependency_level",
    "action",
    "port",
    "enabled_modes.reactor",
    "local_port",
    "enclaves",
    "timing_domain",
    "delay_nanos",
];

/// Document 01's identity kinds, from 1.
pub const KINDS: [&str; 6] = ["federate", "target", "runtime", "enclave", "boundary", "binding"];

/// What a number after a refusal stands for.
#[derive(Clone, Copy, PartialEq, Eq)]
pub enum Value {
    Table(&'static str),
    Field,
    Kind,
    Direction,
    Plain(&'static str),
}

use Value::{Direction, Field, Kind, Plain};

const TABLE: Value = Value::Table("table");
const TARGET: Value = Value::Table("target");
const INDEX: Value = Plain("index");
const RECORD: Value = Plain("record");
const STATION: Value = Plain("station");
const BIT: Value = Plain("text bit");
const START: Value = Plain("start");
const LENGTH: Value = Plain("length");

pub struct Refusal {
    pub number: u64,
    pub name: &'static str,
    pub values: &'static [Value],
}

const fn refusal(number: u64, name: &'static str, values: &'static [Value]) -> Refusal {
    Refusal { number, name, values }
}

const IDENTITY: &[Value] = &[Kind, INDEX, BIT, START, LENGTH];

pub const REFUSALS: [Refusal; 41] = [
    refusal(1, "length of the pack", &[]),
    refusal(2, "text too long", &[Plain("text")]),
    refusal(3, "table number unknown or out of place", &[RECORD]),
    refusal(4, "stray byte, bit or kind, or absent field not zero", &[RECORD]),
    refusal(5, "identity outside its text", &[RECORD]),
    refusal(6, "identity not UTF-8", &[RECORD]),
    refusal(12, "ReferenceOutOfBounds", &[TABLE, INDEX, Field, TARGET, Plain("referenced"), Plain("rows")]),
    refusal(13, "RangeOutOfBounds", &[TABLE, INDEX, Field, TARGET, START, LENGTH]),
    refusal(14, "RangesNotMonotonic", &[TABLE, INDEX, Field, START, Plain("previous end")]),
    refusal(15, "EntriesNotSorted", &[TABLE, INDEX]),
    refusal(16, "DuplicateEntry", &[TABLE, INDEX]),
    refusal(17, "OwnershipMismatch", &[TABLE, INDEX, Field]),
    refusal(18, "ScopeParentCycle", &[Plain("scope")]),
    refusal(19, "InvalidStableId", IDENTITY),
    refusal(20, "StableIdsNotSorted", IDENTITY),
    refusal(21, "DuplicateStableId", IDENTITY),
    refusal(22, "InvalidBankInfo", &[Plain("reactor"), INDEX, Plain("total")]),
    refusal(23, "StorageBoundExceeded", &[TABLE, INDEX, Plain("slot"), Plain("bound")]),
    refusal(24, "BindingKindMismatch", &[TABLE, INDEX, Field]),
    refusal(25, "BindingPresenceMismatch", &[TABLE, INDEX, Field]),
    refusal(26, "UnpairedRoute", &[BIT, START, LENGTH, Direction]),
    refusal(27, "DuplicateRouteHalf", &[BIT, START, LENGTH, Direction]),
    refusal(28, "RoutePairMismatch", &[BIT, START, LENGTH, Field]),
    refusal(29, "PhysicalRoute", &[STATION, Plain("route")]),
    refusal(30, "ScopeTooDeep", &[STATION, Plain("scope")]),
    refusal(31, "TooManyReactors", &[STATION, Plain("reactors")]),
    refusal(32, "LevelNotRising", &[Plain("reaction"), Plain("target")]),
    refusal(33, "ScratchTooShort", &[]),
    refusal(34, "OutputTooShort", &[]),
    refusal(35, "NoSuchRecord", &[]),
    refusal(36, "RecordLength", &[]),
    refusal(37, "TableChanges", &[]),
    refusal(38, "ScopeCount", &[]),
    refusal(39, "ZeroDeadline", &[INDEX]),
    refusal(40, "TallyFull", &[]),
    refusal(41, "ParentsLength", &[]),
    refusal(42, "ParentOutside", &[]),
    refusal(43, "NotATree", &[]),
    refusal(44, "LinkSumTooLarge", &[]),
    refusal(45, "NothingToDivide", &[]),
    refusal(46, "NoSuchTally", &[]),
];

/// The refusal with this number.
pub fn refusal_of(number: u64) -> &'static Refusal {
    REFUSALS.iter().find(|refusal| refusal.number == number).expect("a refusal of documents 01 and 02")
}

/// A table's name by its number.
pub fn table_name(number: u64) -> &'static str {
    match number {
        255 => "Enclave key domain",
        _ => TABLES[number as usize].name,
    }
}

pub fn field_name(number: u64) -> &'static str {
    FIELDS[number as usize - 1]
}

pub fn kind_name(number: u64) -> &'static str {
    KINDS[number as usize - 1]
}

pub fn direction_name(number: u64) -> &'static str {
    ["inbound", "outbound"][number as usize]
}
