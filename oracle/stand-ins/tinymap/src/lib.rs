//! boomerang_tinymap as published, built from a copy, with stand-ins for its missing modules.
#![allow(macro_expanded_macro_exports_accessed_by_absolute_paths)]
include!(concat!(env!("OUT_DIR"), "/copy/modules.rs"));
pub use original::*;
