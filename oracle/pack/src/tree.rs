//! What follows the parts of a tree's case: how many scopes, and the bytes that are lent.

/// The bytes of the count and of the length before the lent bytes.
const HEAD: usize = 8;

/// The count, and the lent bytes, which the reader of a corpus has found whole.
pub fn read(rest: &[u8]) -> (u32, &[u8]) {
    let (head, lent) = rest.split_at(HEAD);
    (u32::from_be_bytes([head[0], head[1], head[2], head[3]]), lent)
}

/// The same as the bytes of a case.
pub fn written(count: u32, lent: &[u8]) -> Vec<u8> {
    [&count.to_be_bytes()[..], &(lent.len() as u32).to_be_bytes(), lent].concat()
}
