//! Routes, all paired across the stations of a line.
use crate::names::{place, texts, Place};
use crate::rows::{binding, enclave, federate, port, reactor, route, scope, PORT, STATE};
use crate::sample::{stations, Sample};
use pack::row::Row;

/// Records of a station beside its routes.
const STATION: usize = 6;

/// A station with one port and these routes.
fn station(id: Place, bindings: [Place; 2], routes: impl IntoIterator<Item = Row>) -> Vec<Row> {
    let mut rows = vec![enclave(id, 1, 0), reactor(), port(1), scope(None)];
    rows.extend(routes);
    rows.extend([binding(bindings[0], STATE), binding(bindings[1], PORT)]);
    rows
}

/// Two stations: the halves of each boundary stand at the same index of both.
pub fn across_two(records: usize) -> Sample {
    let count = (records - 1) / 2 - STATION;
    let boundaries: Vec<Place> = (0..count).map(place).collect();
    two_stations([0, 1].map(place), &boundaries, texts(count.max(2)))
}

/// Two stations with a half of each boundary; the names serve as the stations' and bindings' too.
pub fn two_stations(names: [Place; 2], boundaries: &[Place], texts: (Vec<u8>, Vec<u8>)) -> Sample {
    let mut rows = vec![federate(names[0], 2)];
    for (outbound, id) in [false, true].into_iter().zip(names) {
        rows.extend(station(id, names, boundaries.iter().map(|boundary| route(*boundary, outbound))));
    }
    Sample::federate(&rows, texts, stations(2))
}

/// Boundaries that start in each of many stations.
const EACH: usize = 5;

/// Many stations: half of a boundary in one, the other in the station half a line away.
pub fn across_many(records: usize) -> Sample {
    let count = (records - 1) / (STATION + 2 * EACH);
    let mut rows = vec![federate(place(0), count as u64)];
    for at in 0..count {
        let boundaries = |station: usize| EACH * station..EACH * (station + 1);
        let away = (at + count / 2) % count;
        let mut halves: Vec<(usize, bool)> = boundaries(away).map(|number| (number, false)).collect();
        halves.extend(boundaries(at).map(|number| (number, true)));
        halves.sort();
        let routes = halves.into_iter().map(|(number, outbound)| route(place(number), outbound));
        rows.extend(station(place(at), [0, 1].map(place), routes));
    }
    Sample::federate(&rows, texts(EACH * count), stations(count as u64))
}
