//! Stand-in for sparse_map.rs: the names only.
pub struct BorrowedSecondaryStorage;
pub struct InlineSecondaryStorage;
pub struct SealedTinySecondaryMap;
pub struct TinySecondaryMapBuilder;
pub struct TinySecondaryMapMut;
pub struct TinySecondaryMapRef;
pub struct TinySecondaryMapSpanMut;
pub struct TinySecondaryMapSpanRef;
