//! Stand-in for handle.rs: the names only.
pub struct Handle;
pub struct HandleTable;
pub struct LinkedHandleTable;
