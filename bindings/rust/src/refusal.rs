//! The refusals of documents 01 and 02: their numbers, what they carry, and their words.
use crate::names::{Field, IdKind, IdentityPlace, RouteDirection, Table, Text};
use crate::numbers::{Numbers, Value};
use std::error::Error;
use std::fmt;

/// What a refusal's field says.
macro_rules! about {
    (RoutePairMismatch field) => { "The field that is not the same in both halves." };
    (InvalidBankInfo index) => { "The reactor's index in its bank." };
    (LevelNotRising target) => { "The row of the reaction that it triggers." };
    (ReferenceOutOfBounds target) => { "The table that should have the row." };
    (InvalidStableId index) => { "The row of the boundary or the binding; else 0." };
    (StableIdsNotSorted index) => { "The row of the boundary or the binding; of a station its place and the start of the line's span together." };
    (DuplicateStableId index) => { about!(StableIdsNotSorted index) };
    ($refusal:ident text) => { "The text that is too long." };
    ($refusal:ident record) => { "The record, counted from 0 through the whole pack." };
    ($refusal:ident table) => { "The row's table." };
    ($refusal:ident index) => { "The row, counted from 0 in its table and its station." };
    ($refusal:ident field) => { "The row's field." };
    ($refusal:ident target) => { "The table that the range is of." };
    ($refusal:ident referenced) => { "The row that is missing there." };
    ($refusal:ident rows) => { "How many rows that table has." };
    ($refusal:ident start) => { "Where the range starts." };
    ($refusal:ident len) => { "How many rows it has." };
    ($refusal:ident previous_end) => { "Where the range of the row before ends." };
    ($refusal:ident scope) => { "The scope's row." };
    ($refusal:ident kind) => { "What the identity names." };
    ($refusal:ident id) => { "Where the identity stands." };
    ($refusal:ident boundary) => { "Where the boundary's identity stands." };
    ($refusal:ident direction) => { "Which half it is." };
    ($refusal:ident reactor) => { "The reactor's row." };
    ($refusal:ident total) => { "How many reactors the bank has." };
    ($refusal:ident slot) => { "The slot that the row uses." };
    ($refusal:ident bound) => { "How many such slots the station may use." };
    ($refusal:ident enclave) => { "The station, by its place in the line from 0." };
    ($refusal:ident route) => { "The route's row." };
    ($refusal:ident reactors) => { "How many reactors it has." };
    ($refusal:ident reaction) => { "The row of the reaction that writes." };
}

/// Makes the refusals from lines `NUMBER Name { field: Type, .. }: WORDS;`. The numbers after a refusal's are those of its fields, in their order.
macro_rules! refusals {
    ($(
        $number:literal $name:ident $({ $($field:ident: $type:ty),* })? : $words:literal $(, $key:ident = $value:expr)*;
    )*) => {
        /// Why an answer is no: one variant for each refusal of documents 01 and 02, shown as a sentence. `docs/REFUSALS.md` says of each what to look at.
        #[derive(Clone, Copy, Debug, PartialEq, Eq)]
        pub enum Refusal {
            $(
                #[doc = concat!("Refusal ", $number, ": `", $words, "`")]
                $name $({ $(#[doc = about!($name $field)] $field: $type),* })?,
            )*
            /// Numbers that none of the refusals above has.
            Unknown(Numbers),
        }

        impl Refusal {
            /// The refusal that has these numbers, its own first; nothing where none has them.
            pub fn from_numbers(numbers: &[u64]) -> Option<Refusal> {
                let mut rest = numbers;
                let refusal = match u64::read(&mut rest)? {
                    $($number => Refusal::$name { $($($field: Value::read(&mut rest)?),*)? },)*
                    _ => return None,
                };
                rest.is_empty().then_some(refusal)
            }

            /// The refusal's number, then the numbers that it carries.
            pub fn numbers(&self) -> Numbers {
                let mut numbers = Numbers::default();
                match *self {
                    $(Refusal::$name { $($($field),*)? } => {
                        numbers.push($number);
                        $($($field.write(&mut numbers);)*)?
                    })*
                    Refusal::Unknown(given) => numbers = given,
                }
                numbers
            }
        }

        impl fmt::Display for Refusal {
            fn fmt(&self, f: &mut fmt::Formatter<'_>) -> fmt::Result {
                match *self {
                    $(Refusal::$name { $($($field),*)? } => write!(f, $words $(, $key = $value)*),)*
                    Refusal::Unknown(numbers) => {
                        write!(f, "No explanation is known for refusal {numbers}; docs/REFUSALS.md lists the refusals.")
                    }
                }
            }
        }
    };
}

refusals! {
    1 Length: "line.pack is empty, too long, or not a whole number of 64-byte records.";
    2 TextTooLong { text: Text }: "{text} is longer than 65,536 bytes.";
    3 TableOutOfPlace { record: u32 }: "Record {record} of line.pack has a table number that is unknown or out of place.";
    4 StrayByte { record: u32 }:
        "Record {record} of line.pack has a byte, bit or kind that its table does not use, or a value in a field that is marked absent.";
    5 IdentityOutside { record: u32 }: "Record {record} of line.pack has an identity that reaches past the end of its text.";
    6 NotUtf8 { record: u32 }: "Record {record} of line.pack has an identity that is not UTF-8.";
    12 ReferenceOutOfBounds { table: Table, index: u32, field: Field, target: Table, referenced: u32, rows: u32 }:
        "{table}[{index}].{field} names missing {target}[{referenced}]: there {are}.", are = are(rows);
    13 RangeOutOfBounds { table: Table, index: u32, field: Field, target: Table, start: u64, len: u64 }:
        "{table}[{index}].{field} is the range {start}+{len} (start+length), which reaches past the end of {the}{target}.", the = the(target);
    14 RangesNotMonotonic { table: Table, index: u32, field: Field, start: u64, previous_end: u64 }:
        "{table}[{index}].{field} starts at {start}, before {previous_end}, where the row before it ends.";
    15 EntriesNotSorted { table: Table, index: u32 }: "{table}[{index}] is out of order: {order}.", order = order(table);
    16 DuplicateEntry { table: Table, index: u32 }: "{table}[{index}] {repeats} the entry before it.", repeats = repeats(table);
    17 OwnershipMismatch { table: Table, index: u32, field: Field }:
        "{table}[{index}].{field} does not fit its owner{ownership}.", ownership = ownership(field);
    18 ScopeParentCycle { scope: u32 }: "The parents of scopes[{scope}] lead into a cycle.";
    19 InvalidStableId { kind: IdKind, index: u32, id: IdentityPlace }:
        "The {kind} identity at {index} ({id}) is not valid: it is empty, has a control character, or begins or ends with white space.";
    20 StableIdsNotSorted { kind: IdKind, index: u32, id: IdentityPlace }:
        "The {kind} identity at {index} ({id}) is out of order: it sorts before the one before it.";
    21 DuplicateStableId { kind: IdKind, index: u32, id: IdentityPlace }: "The {kind} identity at {index} ({id}) repeats the one before it.";
    22 InvalidBankInfo { reactor: u32, index: u32, total: u32 }:
        "reactors[{reactor}] has bank index {index} of total {total}; the index must be below the total.";
    23 StorageBoundExceeded { table: Table, index: u32, slot: u32, bound: u32 }:
        "{table}[{index}] uses {kind}slot {slot}, and the machine's bound is {bound}; the slot must be below it.", kind = slot_kind(table);
    24 BindingKindMismatch { table: Table, index: u32, field: Field }: "{table}[{index}].{field} names a required binding of the wrong kind.";
    25 BindingPresenceMismatch { table: Table, index: u32, field: Field }:
        "{table}[{index}].{field} is wrongly there or missing: a standard action has a binding, a timer or shutdown action has none.";
    26 UnpairedRoute { boundary: IdentityPlace, direction: RouteDirection }:
        "The {direction} half of the boundary ({boundary}) has no other half in the line.";
    27 DuplicateRouteHalf { boundary: IdentityPlace, direction: RouteDirection }:
        "The boundary ({boundary}) has more than one {direction} half.";
    28 RoutePairMismatch { boundary: IdentityPlace, field: Field }: "The two halves of the boundary ({boundary}) differ in {field}.";
    29 PhysicalRoute { enclave: u32, route: u32 }: "routes[{route}] of station {enclave} is physical; at night every route is logical.";
    30 ScopeTooDeep { enclave: u32, scope: u32 }: "scopes[{scope}] of station {enclave} has more than 8 ancestors, the most at night.";
    31 TooManyReactors { enclave: u32, reactors: u32 }:
        "Station {enclave} has {reactors} reactor{s}; at night a station has at most 64.", s = if reactors == 1 { "" } else { "s" };
    32 LevelNotRising { reaction: u32, target: u32 }:
        "reactions[{reaction}] writes a port that triggers reactions[{target}], whose level is not above its own.";
    33 ScratchTooShort: "The lent memory is shorter than the reactions of the station need.";
    34 OutputTooShort: "The output is shorter than the pack to be converted.";
    35 NoSuchRecord: "The pack has no record of that number.";
    36 RecordLength: "The record to be put in is not 64 bytes long.";
    37 TableChanges: "The record to be put in is of another table than the record in its place.";
    38 ScopeCount: "Tables of parents are listed for 1 to 4 scopes.";
    39 ZeroDeadline { index: u32 }: "The deadline in row {index} of deadlines is zero; it must be at least one nanosecond.";
    40 TallyFull: "The tally is full: it holds 1,000,000 answers.";
    41 ParentsLength: "The table of parents has not one byte for each scope.";
    42 ParentOutside: "A byte of the table of parents is above the number of scopes.";
    43 NotATree: "The table is none of a tree: a chain of parents does not end.";
    44 LinkSumTooLarge: "The sum of the links would be above 18446744073709551615, the largest number of 64 bits.";
    45 NothingToDivide: "There is nothing to divide by: no answer was added, or none of them is accepted.";
    46 NoSuchTally: "No sequence of answers gives this tally.";
}

impl Error for Refusal {}

impl Refusal {
    /// What the library's numbers say, whichever they are. Cold, as most answers are a yes.
    #[cold]
    pub(crate) fn given(numbers: &[u64]) -> Refusal {
        Refusal::from_numbers(numbers).unwrap_or_else(|| Refusal::Unknown(Numbers::listed(numbers)))
    }

    /// The refusal's number.
    pub fn number(&self) -> u64 {
        self.numbers().first().copied().unwrap_or_default()
    }
}

/// So many rows, after `there`.
fn are(rows: u32) -> String {
    match rows {
        0 => "is none".to_string(),
        1 => "is 1".to_string(),
        _ => format!("are {rows}"),
    }
}

/// What stands before a table as a whole: the key domain is none.
fn the(table: Table) -> &'static str {
    match table {
        Table::EnclaveKeyDomain => "the ",
        _ => "",
    }
}

/// What an entry out of order should be like.
fn order(table: Table) -> &'static str {
    match table {
        Table::Routes => "the inbound half of a boundary comes before its outbound half",
        _ => "it belongs before the entry before it",
    }
}

fn repeats(table: Table) -> &'static str {
    match table {
        Table::Deadlines => "is for the reaction of",
        _ => "repeats",
    }
}

/// Which slots the rows of a table use.
fn slot_kind(table: Table) -> &'static str {
    match table {
        Table::Reactors => "state ",
        Table::Actions => "action ",
        _ => "",
    }
}

/// What is wrong with the owner that a field should fit.
fn ownership(field: Field) -> &'static str {
    match field {
        Field::RootScope => ": the scope belongs to another reactor or to a mode",
        Field::InitialMode => ": the mode is not one of the reactor's own",
        Field::ScopeReactor => ": the scope belongs to another reactor",
        Field::ModeEffectTargetReactor => ": the target mode belongs to another reactor",
        Field::ScopeMode => ": the scope does not name this mode",
        Field::ReactorModes => ": the reactor's span of modes does not hold this mode",
        Field::Mode => ": the mode names another scope or another reactor",
        Field::DependencyLevel => ": the level is not that of the reaction",
        Field::EnabledModesReactor => ": an enabled mode belongs to another reactor",
        Field::Enclaves => ": the span's length is not the number of stations in the pack",
        _ => "",
    }
}

#[cfg(test)]
mod tests {
    use super::*;

    /// Numbers of a newer library, of none, and more than a refusal has: they stay, and are shown.
    #[test]
    fn unknown_numbers_stay() {
        for numbers in
            [&[47, 3][..], &[], &[1, 0], &[11, 7], &[12, 26, 0, 1, 2, 0, 0], &[3, 1 << 32], &[9; 8]]
        {
            assert_eq!(Refusal::from_numbers(numbers), None);
            let refusal = Refusal::given(numbers);
            assert!(matches!(refusal, Refusal::Unknown(_)));
            assert_eq!(&refusal.numbers()[..], numbers);
            assert_eq!(refusal.number(), numbers.first().copied().unwrap_or(0));
        }
        assert_eq!(
            Refusal::given(&[47, 3]).to_string(),
            "No explanation is known for refusal 47 3; docs/REFUSALS.md lists the refusals."
        );
    }
}
