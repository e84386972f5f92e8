//! The count of parent links, from document 01, module 5.
use pack::layout::SCOPES;
use pack::row::Row;

/// For each scope of a station, parents followed until none or until as many as there are scopes.
pub fn links(station: &[Row]) -> u64 {
    let parents: Vec<Option<u64>> = station
        .iter()
        .filter(|row| row.table == SCOPES)
        .map(|row| row.present(0).then(|| row.numbers[0]))
        .collect();
    (0..parents.len()).map(|scope| followed(&parents, scope)).sum()
}

fn followed(parents: &[Option<u64>], scope: usize) -> u64 {
    let mut count = 0;
    let mut at = scope;
    while count < parents.len() as u64 {
        let Some(parent) = parents[at] else {
            break;
        };
        count += 1;
        at = parent as usize;
    }
    count
}
