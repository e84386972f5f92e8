//! One record of a line tried or changed.
use crate::checks::of_line;
use crate::{library, Answer, STACK};

/// Bytes of stack that are enough to change or to try a record of a pack of more than 65,536 bytes. A thread of Rust's has less unless it is asked for more.
pub const CHANGE_STACK: usize = (1 << 22) + STACK;

/// What [`change_record`] would answer of a copy of the pack. Nothing is written.
///
/// A pack of more than 65,536 bytes needs [`CHANGE_STACK`].
pub fn preview_record(pack: &[u8], batch: &[u8], house: &[u8], number: u32, row: &[u8]) -> Answer {
    of_line(library::preview_record([pack, batch, house], number, row))
}

/// Writes the 64 bytes of `row` over record `number` of a line's pack, where the line is accepted before and after, and answers for the line after it.
///
/// Or it answers the refusal and leaves the pack as it was: [`RecordLength`], the line's own, [`NoSuchRecord`], [`TableChanges`], or that of the line with
/// the row. A pack of more than 65,536 bytes needs [`CHANGE_STACK`].
///
/// [`RecordLength`]: crate::Refusal::RecordLength
/// [`NoSuchRecord`]: crate::Refusal::NoSuchRecord
/// [`TableChanges`]: crate::Refusal::TableChanges
pub fn change_record(pack: &mut [u8], batch: &[u8], house: &[u8], number: u32, row: &[u8]) -> Answer {
    of_line(library::change_record(pack, [batch, house], number, row))
}
