//! All small scope trees (document 02, Wish 10): the first table of parents, and the next after a given one.
use pack::corpus::FIRST_TREE;
use pack::tree::read;
use std::fmt;

/// What a question gives.
#[derive(Clone, Copy, Debug, PartialEq, Eq)]
pub enum Given {
    Table,
    End,
    Refused(u64),
}

/// What it gives, and the lent bytes after it.
#[derive(Clone, Debug, PartialEq, Eq)]
pub struct Grown {
    pub given: Given,
    pub lent: Vec<u8>,
}

/// What a case of this kind gives, by what follows its parts.
pub fn of(kind: u8, rest: &[u8]) -> Grown {
    let (count, lent) = read(rest);
    let mut table = lent.to_vec();
    let given = if kind == FIRST_TREE { first(count, &mut table) } else { next(count, &mut table) };
    let lent = if given == Given::Table { table } else { lent.to_vec() };
    Grown { given, lent }
}

/// 38 and 41.
fn shape(count: u32, table: &[u8]) -> Option<Given> {
    match count {
        1..=4 if table.len() == count as usize => None,
        1..=4 => Some(Given::Refused(41)),
        _ => Some(Given::Refused(38)),
    }
}

/// No scope has a parent.
fn first(count: u32, table: &mut [u8]) -> Given {
    if let Some(refused) = shape(count, table) {
        return refused;
    }
    table.fill(0);
    Given::Table
}

/// The tables after the given one are tried one by one.
fn next(count: u32, table: &mut [u8]) -> Given {
    if let Some(refused) = shape(count, table) {
        return refused;
    }
    if table.iter().any(|byte| u32::from(*byte) > count) {
        return Given::Refused(42);
    }
    if !is_tree(table) {
        return Given::Refused(43);
    }
    while count_on(table) {
        if is_tree(table) {
            return Given::Table;
        }
    }
    Given::End
}

/// Counts one on, the last digit first; false where it comes round to zeros.
fn count_on(table: &mut [u8]) -> bool {
    let most = table.len() as u8;
    for digit in table.iter_mut().rev() {
        if *digit < most {
            *digit += 1;
            return true;
        }
        *digit = 0;
    }
    false
}

/// Which scopes hang below one without a parent: from those down, the children of what hangs are hung.
fn hanging(table: &[u8]) -> Vec<bool> {
    let mut hangs = vec![false; table.len()];
    for _ in table {
        for (scope, byte) in table.iter().enumerate() {
            hangs[scope] = *byte == 0 || hangs[*byte as usize - 1];
        }
    }
    hangs
}

fn is_tree(table: &[u8]) -> bool {
    hanging(table).iter().all(|hangs| *hangs)
}

impl fmt::Display for Given {
    fn fmt(&self, to: &mut fmt::Formatter<'_>) -> fmt::Result {
        match self {
            Given::Table => write!(to, "table"),
            Given::End => write!(to, "end"),
            Given::Refused(number) => write!(to, "refused {number}"),
        }
    }
}

impl fmt::Display for Grown {
    fn fmt(&self, to: &mut fmt::Formatter<'_>) -> fmt::Result {
        write!(to, "{} | ", self.given)?;
        if self.lent.is_empty() {
            return write!(to, "-");
        }
        self.lent.iter().try_for_each(|byte| write!(to, "{byte:02x}"))
    }
}

#[cfg(test)]
mod tests {
    use super::*;
    use crate::answer;
    use pack::corpus::{Case, NEXT_TREE, STATION};
    use pack::layout::{BINDINGS, ENCLAVE, REACTORS, SCOPES};
    use pack::row::{pack, Row};
    use pack::tree::written;

    fn asked(kind: u8, count: u32, lent: &[u8]) -> String {
        of(kind, &written(count, lent)).to_string()
    }

    /// All tables that first and then next give.
    fn listed(count: u32) -> Vec<Vec<u8>> {
        let mut grown = of(FIRST_TREE, &written(count, &vec![9; count as usize]));
        let mut tables = vec![];
        while grown.given == Given::Table {
            tables.push(grown.lent.clone());
            grown = of(NEXT_TREE, &written(count, &grown.lent));
        }
        assert_eq!((grown.given, grown.lent), (Given::End, tables[tables.len() - 1].clone()));
        tables
    }

    #[test]
    fn counts() {
        assert_eq!([1, 2, 3, 4].map(|count| listed(count).len()), [1, 3, 16, 125]);
    }

    /// The Rust's answer for document 01's S with the scopes of a table.
    fn in_s(table: &[u8]) -> String {
        let scope = |byte: &u8| {
            let mut row = Row::new(SCOPES, &[0; 15]);
            row.bits = (*byte > 0) as u8;
            row.numbers[0] = u64::from(byte.saturating_sub(1));
            row
        };
        let mut rows = vec![Row::new(ENCLAVE, &[0, 1, 1, 0, 0, 0, 0, 0]), Row::new(REACTORS, &[0; 8])];
        rows.extend(table.iter().map(scope));
        rows.push(Row::new(BINDINGS, &[1, 1]));
        answer(&Case { kind: STATION, pack: pack(&rows), batch: b"ab".to_vec(), ..Case::default() })
            .to_string()
    }

    fn depth(table: &[u8], scope: usize) -> u64 {
        match table[scope] {
            0 => 0,
            byte => 1 + depth(table, byte as usize - 1),
        }
    }

    #[test]
    fn trees_in_s() {
        for count in 1..=4 {
            let mut table = vec![0; count];
            let mut tried = 0;
            loop {
                let expected = match hanging(&table).iter().position(|hangs| !hangs) {
                    None => format!("accepted {}", (0..count).map(|scope| depth(&table, scope)).sum::<u64>()),
                    Some(scope) => format!("refused 18 {scope}"),
                };
                assert_eq!(in_s(&table), expected, "{table:?}");
                tried += 1;
                if !count_on(&mut table) {
                    break;
                }
            }
            assert_eq!(tried, (count + 1).pow(count as u32));
        }
    }

    #[test]
    fn two_scopes() {
        assert_eq!(listed(2), [[0, 0], [0, 1], [2, 0]]);
        assert_eq!(asked(FIRST_TREE, 2, &[7, 8]), "table | 0000");
        assert_eq!(asked(NEXT_TREE, 2, &[2, 0]), "end | 0200");
    }

    #[test]
    fn order_of_refusals() {
        assert_eq!(asked(FIRST_TREE, 0, &[]), "refused 38 | -");
        assert_eq!(asked(NEXT_TREE, 5, &[9]), "refused 38 | 09");
        assert_eq!(asked(NEXT_TREE, 2, &[3, 0, 0]), "refused 41 | 030000");
        assert_eq!(asked(NEXT_TREE, 2, &[1, 3]), "refused 42 | 0103");
        assert_eq!(asked(NEXT_TREE, 2, &[2, 1]), "refused 43 | 0201");
    }
}
