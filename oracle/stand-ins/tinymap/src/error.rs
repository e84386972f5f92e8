//! Stand-in for error.rs: the name only.
pub struct TinyMapError;
