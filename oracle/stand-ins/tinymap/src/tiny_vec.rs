//! Stand-in for tiny_vec.rs: the names only.
pub struct BorrowedStorage;
pub struct InlineStorage;
pub struct TinyVecBuilder;
