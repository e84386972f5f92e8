//! The converter beside the oracle's reference, at the largest size too, on a stack of `STACK` bytes.
use image_check::{convert_enclave, convert_federate, STACK};
use pack::convert::{self, Converted};
use pack::corpus::Kind;
use pack::layout::{numbers, ENCLAVE, FEDERATE, REACTORS, TABLES};
use pack::rng::Rng;
use pack::row::{pack, Row};
use pack::{PACK_LIMIT, RECORD};

/// As many records as a pack may have.
const MOST: usize = PACK_LIMIT / RECORD;

/// A row of a table without stray bits, its numbers by chance.
fn row(rng: &mut Rng, table: u8) -> Row {
    let numbers = numbers(table).iter().map(|number| rng.next() >> (64 - 8 * number.bytes)).collect();
    let (bits, second) = (rng.below(256) as u8, rng.below(256) as u8);
    let mut row = Row { table, bits, second, numbers };
    row.settle();
    row
}

/// A station of so many records, with rows of each table.
fn station(rng: &mut Rng, records: usize) -> Vec<Row> {
    let known = TABLES.len() - REACTORS as usize;
    let rest = (0..records - 1).map(|at| REACTORS + (at * known / (records - 1)) as u8);
    let tables: Vec<u8> = std::iter::once(ENCLAVE).chain(rest).collect();
    tables.into_iter().map(|table| row(rng, table)).collect()
}

/// A station's pack, or that of a line of two stations.
fn packed(kind: Kind, records: usize) -> Vec<u8> {
    let mut rng = Rng::of_case(6, records as u64);
    let rows = match kind {
        Kind::Enclave => station(&mut rng, records),
        Kind::Federate => {
            let line = row(&mut rng, FEDERATE);
            [vec![line], station(&mut rng, records / 2), station(&mut rng, records - 1 - records / 2)]
                .concat()
        }
    };
    pack(&rows)
}

/// What the converter answers on a small stack, and the output after it.
fn converted(pack: Vec<u8>, kind: Kind, mut output: Vec<u8>) -> Converted {
    let convert = match kind {
        Kind::Enclave => convert_enclave,
        Kind::Federate => convert_federate,
    };
    let call = move || {
        let answer = convert(&pack, &mut output);
        Converted { refusal: answer.err().map(|refusal| refusal.numbers().to_vec()), output }
    };
    std::thread::Builder::new().stack_size(STACK).spawn(call).unwrap().join().unwrap()
}

/// The same as the reference gives, answer and output; the refusal.
fn tried(pack: &[u8], kind: Kind, room: usize) -> Option<Vec<u64>> {
    let output: Vec<u8> = (0..room).map(|at| (at % 251) as u8).collect();
    let expected = convert::of(pack, kind, &output);
    let found = converted(pack.to_vec(), kind, output);
    assert_eq!(found.refusal, expected.refusal);
    assert!(found.output == expected.output, "another output than the reference's");
    found.refusal
}

#[test]
fn largest_packs() {
    for kind in [Kind::Enclave, Kind::Federate] {
        let pack = packed(kind, MOST);
        assert_eq!(pack.len(), 4_194_304);
        assert_eq!(tried(&pack, kind, pack.len()), None);
        assert_eq!(tried(&pack, kind, pack.len() + 100), None);
        let there = converted(pack.clone(), kind, vec![0; pack.len()]).output;
        assert_eq!(tried(&there, kind, there.len()), None);
        let back = converted(there, kind, vec![0; pack.len()]).output;
        assert!(back == pack, "not the first pack");
    }
}

#[test]
fn largest_packs_refused() {
    let mut pack = packed(Kind::Enclave, MOST);
    let last = MOST as u64 - 1;
    assert_eq!(tried(&pack, Kind::Enclave, pack.len() - 1), Some(vec![34]));
    assert_eq!(tried(&pack, Kind::Federate, pack.len()), Some(vec![3, 0]));
    pack[PACK_LIMIT - 1] = 1;
    assert_eq!(tried(&pack, Kind::Enclave, pack.len()), Some(vec![4, last]));
    pack[PACK_LIMIT - RECORD] = TABLES.len() as u8;
    assert_eq!(tried(&pack, Kind::Enclave, pack.len()), Some(vec![3, last]));
    pack.extend([0; RECORD]);
    assert_eq!(tried(&pack, Kind::Enclave, pack.len() - 1), Some(vec![1]));
}

#[test]
fn small_packs() {
    for kind in [Kind::Enclave, Kind::Federate] {
        for records in [30, 61, 400] {
            let pack = packed(kind, records);
            for room in [0, 1, pack.len() - 1, pack.len(), pack.len() + 1] {
                assert_eq!(tried(&pack, kind, room), (room < pack.len()).then(|| vec![34]));
            }
            assert_eq!(tried(&pack[1..], kind, pack.len()), Some(vec![1]));
        }
    }
    assert_eq!(tried(&[], Kind::Enclave, 0), Some(vec![1]));
}

/// Each byte of a record of each table made another, one at a time.
#[test]
fn each_byte() {
    let mut pack = packed(Kind::Enclave, 97);
    let mut refused = 0;
    for at in 0..pack.len() {
        for byte in [pack[at] ^ 1, pack[at] ^ 0x80] {
            let before = std::mem::replace(&mut pack[at], byte);
            let expected = convert::of(&pack, Kind::Enclave, &pack);
            let mut output = pack.clone();
            let answer = convert_enclave(&pack, &mut output).err().map(|refusal| refusal.numbers().to_vec());
            refused += usize::from(answer.is_some());
            assert_eq!(Converted { refusal: answer, output }, expected, "byte {at}");
            pack[at] = before;
        }
    }
    assert!(refused > 1000 && refused < 2 * pack.len());
}
