//! What the night asks of a line that the day accepts (document 02, Wish 2), by its rows.
use pack::corpus::Case;
use pack::layout::{REACTORS, ROUTES, SCOPES};
use pack::row::Row;
use std::collections::HashSet;

/// The most reactors of a station, and the most ancestors of a scope.
const REACTORS_AT_MOST: usize = 64;
const ANCESTORS_AT_MOST: usize = 8;

/// The first rule that is broken: each station's in turn, then the pairs of the whole line.
pub fn refusal(case: &Case, stations: &[&[Row]]) -> Option<Vec<u64>> {
    let broken = (0..).zip(stations).find_map(|(place, station)| of_station(place, station));
    broken.or_else(|| unpaired(case, stations))
}

/// Whether a refusal is the night's.
pub fn is_of_the_night(numbers: &[u64]) -> bool {
    matches!(numbers[0], 26 | 29..=31)
}

/// 31, 30 and 29 of a station, which is named by its place.
fn of_station(place: u64, station: &[Row]) -> Option<Vec<u64>> {
    let table = |number: u8| station.iter().filter(move |row| row.table == number);
    let reactors = table(REACTORS).count();
    if reactors > REACTORS_AT_MOST {
        return Some(vec![31, place, reactors as u64]);
    }
    let scopes: Vec<&Row> = table(SCOPES).collect();
    if let Some(scope) = (0..scopes.len()).find(|scope| ancestors(&scopes, *scope) > ANCESTORS_AT_MOST) {
        return Some(vec![30, place, scope as u64]);
    }
    let route = table(ROUTES).position(is_physical)?;
    Some(vec![29, place, route as u64])
}

/// How many scopes stand above one; the day saw that its parents end.
fn ancestors(scopes: &[&Row], scope: usize) -> usize {
    let parent = |scope: &usize| scopes[*scope].present(0).then(|| scopes[*scope].numbers[0] as usize);
    std::iter::successors(parent(&scope), parent).count()
}

fn is_physical(route: &Row) -> bool {
    route.second & 2 != 0
}

/// 0 inbound, 1 outbound.
fn direction(route: &Row) -> u8 {
    route.second & 1
}

/// 26 of the first route half whose other half is nowhere in the line.
fn unpaired(case: &Case, stations: &[&[Row]]) -> Option<Vec<u64>> {
    let routes = || stations.iter().copied().flatten().filter(|row| row.table == ROUTES);
    let text =
        |route: &Row| case.part(route.bits & 1, route.numbers[0], route.numbers[1]).expect("packing passed");
    let there: HashSet<(&[u8], u8)> = routes().map(|route| (text(route), direction(route))).collect();
    let lone = routes().find(|route| !there.contains(&(text(route), 1 - direction(route))))?;
    let [start, length] = [lone.numbers[0], lone.numbers[1]];
    Some(vec![26, (lone.bits & 1).into(), start, length, direction(lone).into()])
}
