//! What refusals name by a number: tables, fields, kinds of identities, directions of routes, texts; and the place of an identity.
use crate::numbers::{Numbers, Value};
use std::fmt;

/// Makes an enum whose variants have the documents' numbers, and are shown by the documents' names.
macro_rules! names {
    ($(#[$about:meta])* $enum:ident { $($variant:ident = $number:literal $name:literal,)* }) => {
        $(#[$about])*
        #[derive(Clone, Copy, Debug, PartialEq, Eq)]
        #[repr(u8)]
        pub enum $enum {
            $(#[doc = concat!("`", $name, "`")] $variant = $number,)*
        }

        impl fmt::Display for $enum {
            fn fmt(&self, f: &mut fmt::Formatter<'_>) -> fmt::Result {
                f.pad(match self { $($enum::$variant => $name,)* })
            }
        }

        impl Value for $enum {
            fn read(numbers: &mut &[u64]) -> Option<$enum> {
                match u64::read(numbers)? {
                    $($number => Some($enum::$variant),)*
                    _ => None,
                }
            }

            fn write(self, numbers: &mut Numbers) {
                numbers.push(self as u64);
            }
        }
    };
}

names! {
    /// A table of the pack. `image` is the station as a whole, and the Enclave key domain the numbers that stations can have.
    Table {
        Federate = 0 "federate",
        Image = 1 "image",
        Reactors = 2 "reactors",
        Actions = 3 "actions",
        Ports = 4 "ports",
        Reactions = 5 "reactions",
        Modes = 6 "modes",
        Scopes = 7 "scopes",
        ReactionTriggers = 8 "reaction_triggers",
        ReactionUsePorts = 9 "reaction_use_ports",
        ReactionEffectPorts = 10 "reaction_effect_ports",
        ReactionActions = 11 "reaction_actions",
        ReactionModes = 12 "reaction_modes",
        ScopeDescendants = 13 "scope_descendants",
        ScopeLogicalActions = 14 "scope_logical_actions",
        ScopeTimerStartups = 15 "scope_timer_startups",
        ScopeResetReactions = 16 "scope_reset_reactions",
        ScopeStartupReactions = 17 "scope_startup_reactions",
        ScopeShutdownReactions = 18 "scope_shutdown_reactions",
        StartupActions = 19 "startup_actions",
        TimerStartupActions = 20 "timer_startup_actions",
        ShutdownReactions = 21 "shutdown_reactions",
        ShutdownActions = 22 "shutdown_actions",
        Routes = 23 "routes",
        RequiredBindings = 24 "required_bindings",
        Deadlines = 25 "deadlines",
        EnclaveKeyDomain = 255 "Enclave key domain",
    }
}

names! {
    /// A field of a row, or what a row's field leads to.
    Field {
        RootReactor = 1 "root_reactor",
        StateBinding = 2 "state_binding",
        RootScope = 3 "root_scope",
        Modes = 4 "modes",
        InitialMode = 5 "initial_mode",
        Scope = 6 "scope",
        Binding = 7 "binding",
        Triggers = 8 "triggers",
        Reactor = 9 "reactor",
        ScopeReactor = 10 "scope.reactor",
        ModeEffectTarget = 11 "mode_effect.target",
        ModeEffectTargetReactor = 12 "mode_effect.target.reactor",
        UsePorts = 13 "use_ports",
        EffectPorts = 14 "effect_ports",
        Actions = 15 "actions",
        EnabledModes = 16 "enabled_modes",
        ScopeMode = 17 "scope.mode",
        ReactorModes = 18 "reactor.modes",
        Parent = 19 "parent",
        Mode = 20 "mode",
        Descendants = 21 "descendants",
        LogicalActions = 22 "logical_actions",
        TimerStartups = 23 "timer_startups",
        ResetReactions = 24 "reset_reactions",
        StartupReactions = 25 "startup_reactions",
        ShutdownReactions = 26 "shutdown_reactions",
        Reaction = 27 "reaction",
        DependencyLevel = 28 "dependency_level",
        Action = 29 "action",
        Port = 30 "port",
        EnabledModesReactor = 31 "enabled_modes.reactor",
        LocalPort = 32 "local_port",
        Enclaves = 33 "enclaves",
        TimingDomain = 34 "timing_domain",
        DelayNanos = 35 "delay_nanos",
    }
}

names! {
    /// What an identity names.
    IdKind {
        Federate = 1 "federate",
        Target = 2 "target",
        Runtime = 3 "runtime",
        Enclave = 4 "enclave",
        Boundary = 5 "boundary",
        Binding = 6 "binding",
    }
}

names! {
    /// Which half of a boundary a route is.
    RouteDirection {
        Inbound = 0 "inbound",
        Outbound = 1 "outbound",
    }
}

names! {
    /// One of the two lent texts, shown by the operator's file of it.
    Text {
        Batch = 0 "batch.txt",
        House = 1 "house.txt",
    }
}

/// Where an identity stands, in bytes of its text.
#[derive(Clone, Copy, Debug, PartialEq, Eq)]
pub struct IdentityPlace {
    /// The text that holds it.
    pub text: Text,
    /// Its first byte, counted from 0.
    pub start: u32,
    /// How many bytes it has.
    pub len: u32,
}

impl fmt::Display for IdentityPlace {
    fn fmt(&self, f: &mut fmt::Formatter<'_>) -> fmt::Result {
        let IdentityPlace { text, start, len } = self;
        write!(f, "{text}, start {start}, length {len}")
    }
}

impl Value for IdentityPlace {
    fn read(numbers: &mut &[u64]) -> Option<IdentityPlace> {
        Some(IdentityPlace {
            text: Text::read(numbers)?,
            start: u32::read(numbers)?,
            len: u32::read(numbers)?,
        })
    }

    fn write(self, numbers: &mut Numbers) {
        self.text.write(numbers);
        self.start.write(numbers);
        self.len.write(numbers);
    }
}
