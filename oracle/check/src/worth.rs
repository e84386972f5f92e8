//! What a yes is worth (document 02, Wish 8), tried on the rows of one station as the document has it.
use crate::links::links;
use pack::layout::{MODES, REACTORS, SCOPES};
use pack::row::Row;

/// The first consequence of acceptance that does not hold of a station, by the letter that docs/ACCEPTED.md gives it.
pub fn broken(station: &[Row]) -> Option<char> {
    let table = |number: u8| station.iter().filter(|row| row.table == number).collect::<Vec<&Row>>();
    let (reactors, modes, scopes) = (table(REACTORS), table(MODES), table(SCOPES));
    let holds = [
        ('a', (0..scopes.len()).all(|scope| ends(&scopes, scope))),
        ('b', links(station) <= most_links(station)),
        ('c', modes.iter().enumerate().all(|(mode, row)| owners(&reactors, mode) == [row.numbers[0]])),
        ('d', reactors.iter().map(|row| row.numbers[4]).sum::<u64>() == modes.len() as u64),
        ('e', paired(&modes, &scopes)),
    ];
    holds.iter().find(|(_, holds)| !holds).map(|(letter, _)| *letter)
}

/// n times (n - 1) / 2, for the n scopes of a station.
pub fn most_links(station: &[Row]) -> u64 {
    let scopes = station.iter().filter(|row| row.table == SCOPES).count() as u64;
    scopes * scopes.saturating_sub(1) / 2
}

fn optional(row: &Row, at: usize) -> Option<usize> {
    row.present(at).then(|| row.numbers[at] as usize)
}

/// A chain of parents has no scope twice, and ends after at most one link fewer than there are scopes.
fn ends(scopes: &[&Row], scope: usize) -> bool {
    let mut seen = vec![false; scopes.len()];
    let (mut at, mut followed) = (scope, 0);
    loop {
        if std::mem::replace(&mut seen[at], true) {
            return false;
        }
        let Some(parent) = optional(scopes[at], 0) else {
            return followed < scopes.len();
        };
        followed += 1;
        at = parent;
    }
}

/// The reactors whose span holds a mode.
pub fn owners(reactors: &[&Row], mode: usize) -> Vec<u64> {
    let held = |row: &Row| row.numbers[3] <= mode as u64 && (mode as u64) < row.numbers[3] + row.numbers[4];
    (0..).zip(reactors).filter(|(_, row)| held(row)).map(|(reactor, _)| reactor).collect()
}

/// The pairs of a mode and its scope are those of a scope and the mode that it carries; no scope is in two.
fn paired(modes: &[&Row], scopes: &[&Row]) -> bool {
    let mut by_mode: Vec<_> =
        modes.iter().enumerate().map(|(mode, row)| (row.numbers[1] as usize, mode)).collect();
    let by_scope: Vec<_> =
        scopes.iter().enumerate().filter_map(|(scope, row)| Some((scope, optional(row, 2)?))).collect();
    by_mode.sort();
    by_mode == by_scope && by_mode.windows(2).all(|pair| pair[0].0 != pair[1].0)
}

#[cfg(test)]
mod tests {
    use super::*;

    fn scope(parent: Option<u64>, mode: Option<u64>) -> Row {
        let mut numbers = [0; 15];
        (numbers[0], numbers[2]) = (parent.unwrap_or(0), mode.unwrap_or(0));
        Row::new(SCOPES, &numbers).bits(u8::from(parent.is_some()) | u8::from(mode.is_some()) << 1)
    }

    fn reactor(start: u64, len: u64) -> Row {
        Row::new(REACTORS, &[0, 0, 0, start, len, 0, 0, 0])
    }

    fn mode(reactor: u64, scope: u64) -> Row {
        Row::new(MODES, &[reactor, scope])
    }

    /// Two reactors with a root scope each; the second has two modes, each with a scope under its root.
    fn station() -> Vec<Row> {
        vec![
            reactor(0, 0),
            reactor(0, 2),
            mode(1, 2),
            mode(1, 3),
            scope(None, None),
            scope(None, None),
            scope(Some(1), Some(0)),
            scope(Some(1), Some(1)),
        ]
    }

    fn with(at: usize, row: Row) -> Option<char> {
        let mut rows = station();
        rows[at] = row;
        broken(&rows)
    }

    #[test]
    fn each_holds_of_a_station() {
        assert_eq!(broken(&station()), None);
        assert_eq!(broken(&[]), None);
        assert_eq!((links(&station()), most_links(&station())), (2, 6));
    }

    // Where (a) holds, so does (b): it is proved.
    #[test]
    fn each_is_seen_broken() {
        assert_eq!(with(4, scope(Some(0), None)), Some('a'));
        assert_eq!(with(5, scope(Some(3), None)), Some('a'));
        assert_eq!(with(0, reactor(0, 1)), Some('c'));
        assert_eq!(with(1, reactor(0, 1)), Some('c'));
        assert_eq!(with(3, mode(0, 3)), Some('c'));
        assert_eq!(with(1, reactor(0, 3)), Some('d'));
        assert_eq!(with(2, mode(1, 3)), Some('e'));
        assert_eq!(with(6, scope(Some(1), None)), Some('e'));
        assert_eq!(with(4, scope(None, Some(1))), Some('e'));
    }
}
