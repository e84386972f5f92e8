//! The pack, the corpus and the packing rules, from documents 01 and 02.
pub mod convert;
pub mod corpus;
pub mod layout;
pub mod names;
pub mod packing;
pub mod rng;
pub mod row;
pub mod tally;
pub mod tree;
pub mod utf8;

/// Bytes of one record.
pub const RECORD: usize = 64;
/// The longest pack, in bytes.
pub const PACK_LIMIT: usize = 4_194_304;
/// The longest text, in bytes.
pub const TEXT_LIMIT: usize = 65_536;
