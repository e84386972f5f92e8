//! Small scope trees: the legal tables of parents of 1 to 4 scopes, one after another.
use crate::{library, Refusal};
use std::fmt;

/// What was asked for: a table, or that none is left. It is shown as the program `replay` shows it.
#[derive(Clone, Copy, Debug, PartialEq, Eq)]
pub enum Next {
    /// The lent bytes are the next table.
    Table,
    /// The given table is the last; the lent bytes are as they were.
    End,
}

impl fmt::Display for Next {
    fn fmt(&self, f: &mut fmt::Formatter<'_>) -> fmt::Result {
        match self {
            Next::Table => write!(f, "table"),
            Next::End => write!(f, "end"),
        }
    }
}

/// Puts the first legal table of parents of so many scopes into `table`, whatever it held.
///
/// A table has a byte for each of 1 to 4 scopes: 0 for no parent, p + 1 for parent p. It is legal where no chain of parents goes on for ever. On a refusal
/// the bytes are as they were: [`Refusal::ScopeCount`] or [`Refusal::ParentsLength`].
pub fn first_tree(count: u32, table: &mut [u8]) -> Result<(), Refusal> {
    library::tree(library::first_scope_tree, count, table).map(|_| ())
}

/// Puts the next legal table after the one in `table` in its place. The legal tables rise as numbers in base `count` + 1, scope 0 leading.
///
/// At the end the bytes are as they were, and so they are on a refusal: those of [`first_tree`], [`Refusal::ParentOutside`] or [`Refusal::NotATree`].
pub fn next_tree(count: u32, table: &mut [u8]) -> Result<Next, Refusal> {
    let given = library::tree(library::next_scope_tree, count, table);
    given.map(|[more, _]| if more == 0 { Next::End } else { Next::Table })
}
