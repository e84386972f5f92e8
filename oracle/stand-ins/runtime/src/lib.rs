//! boomerang_runtime's image check as published, built from a copy, with stand-ins around it.
#![allow(dead_code)]

/// Stand-in: the check reads `target` alone.
#[derive(Clone, Copy, Debug, PartialEq, Eq)]
pub struct CompiledModeEffectRef {
    pub target: image::ModeIndex,
    pub history: bool,
}

pub mod image {
    include!(concat!(env!("OUT_DIR"), "/copy/modules.rs"));
    mod rti;
    pub use rti::*;
    pub use schema::*;
    pub use view::*;
}
