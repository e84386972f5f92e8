//! Packs from the other make of machine (document 02, Wish 6): every number low byte first in the place of high byte first, or back.
use crate::corpus::Kind;
use crate::layout::{numbers, TABLES};
use crate::packing::{check_length, check_shapes, Fault};
use crate::RECORD;

/// What the converter answers, a refusal's numbers or none, and the output after it.
#[derive(Clone, Debug, PartialEq, Eq)]
pub struct Converted {
    pub refusal: Option<Vec<u64>>,
    pub output: Vec<u8>,
}

/// Each number's bytes in the other order; of a record of no known table all stay.
pub fn turned(pack: &[u8]) -> Vec<u8> {
    let mut pack = pack.to_vec();
    for record in pack.chunks_exact_mut(RECORD).filter(|record| (record[0] as usize) < TABLES.len()) {
        for number in numbers(record[0]) {
            record[number.at..number.at + number.bytes].reverse();
        }
    }
    pack
}

/// "On success the output's first bytes, as many as the pack has, are the result and the rest are unchanged;
/// on refusal all are unchanged."
pub fn of(pack: &[u8], kind: Kind, output: &[u8]) -> Converted {
    let turned = turned(pack);
    let refusal = refusal(&turned, kind, output.len());
    let output = match refusal {
        None => [&turned, &output[pack.len()..]].concat(),
        Some(_) => output.to_vec(),
    };
    Converted { refusal, output }
}

/// "1, then 34 output too short, then 3 and 4 record by record on the turned pack."
fn refusal(turned: &[u8], kind: Kind, room: usize) -> Option<Vec<u64>> {
    let numbers = |fault: Fault| -> Vec<u64> { std::iter::once(fault.refusal).chain(fault.number).collect() };
    if let Err(fault) = check_length(turned.len()) {
        return Some(numbers(fault));
    }
    if room < turned.len() {
        return Some(vec![34]);
    }
    check_shapes(turned, kind).err().map(numbers)
}

#[cfg(test)]
mod tests {
    use super::*;
    use crate::layout::{DEADLINES, ENCLAVE, ROUTES};
    use crate::row::{pack, Row};

    /// Where the numbers of an enclave and of a deadline stand, counted by hand from documents 01 and 02.
    #[test]
    fn turned_by_hand() {
        let enclave = Row::new(ENCLAVE, &[1, 2, 3, 4, 5, 6, 7, 8]).bits(1);
        let mut pack = pack(&[enclave, Row::new(DEADLINES, &[9, 10])]);
        let mut by_hand = vec![0; 128];
        let enclave = [(0, 1), (1, 1), (4, 1), (8, 2), (12, 3), (16, 4), (20, 5), (24, 6), (32, 7), (40, 8)];
        for (at, byte) in enclave.into_iter().chain([(64, 25), (68, 9), (72, 10)]) {
            by_hand[at] = byte;
        }
        assert_eq!(turned(&pack), by_hand);
        assert_eq!(turned(&by_hand), pack);
        pack[64] = TABLES.len() as u8;
        assert_eq!(turned(&pack)[64..], pack[64..]);
    }

    fn station() -> Vec<u8> {
        pack(&[Row::new(ENCLAVE, &[0; 8]), Row::new(ROUTES, &[0, 1, 0x0203, 0x0405])])
    }

    #[test]
    fn order_of_refusals() {
        let refused = |pack: &[u8], kind, room| {
            let Converted { refusal, output } = of(pack, kind, &vec![0xa5; room]);
            assert_eq!(output, vec![0xa5; room]);
            refusal.unwrap()
        };
        let mut pack = station();
        assert_eq!(refused(&[], Kind::Enclave, 0), [1]);
        assert_eq!(refused(&pack[..127], Kind::Enclave, 9), [1]);
        assert_eq!(refused(&pack, Kind::Federate, 127), [34]);
        assert_eq!(refused(&pack, Kind::Federate, 128), [3, 0]);
        pack[127] = 1;
        assert_eq!(refused(&pack, Kind::Enclave, 127), [34]);
        assert_eq!(refused(&pack, Kind::Enclave, 130), [4, 1]);
        pack[64] = ENCLAVE;
        assert_eq!(refused(&pack, Kind::Enclave, 130), [3, 1]);
    }

    #[test]
    fn there_and_back() {
        let pack = station();
        let there = of(&pack, Kind::Enclave, &[7; 130]);
        assert_eq!(there.refusal, None);
        assert_eq!(there.output[76..88], [3, 2, 0, 0, 5, 4, 0, 0, 0, 0, 0, 0]);
        assert_eq!(there.output[128..], [7, 7]);
        let back = of(&there.output[..128], Kind::Enclave, &there.output[..128]);
        assert_eq!((back.refusal, back.output), (None, pack));
    }
}
