//! The converter's questions: packs of either make of machine, each with an output.
use crate::rng::Rng;
use pack::convert::turned;
use pack::corpus::{Case, Kind, CONVERT};
use pack::layout::{ENCLAVE, FEDERATE};
use pack::{PACK_LIMIT, RECORD};

/// Outputs of a corpus have at most so many bytes.
const LONGEST: usize = 65_536;

/// A station's or a line's pack to convert, as it is or turned round, with an output that is long enough or not.
pub fn question(rng: &mut Rng, case: Case) -> Case {
    let pack = if rng.chance(1, 2) { turned(&case.pack) } else { case.pack };
    let output = output(rng, pack.len());
    ask(u32::from(case.kind), pack, output)
}

/// Records at the limit and past it: their output is too short, which is said only of packs within the limit.
pub fn at_the_limit(rng: &mut Rng, kind: Kind) -> Case {
    let (line, first) = match kind {
        Kind::Enclave => (0, ENCLAVE),
        Kind::Federate => (1, FEDERATE),
    };
    let mut pack = vec![0; PACK_LIMIT - RECORD + RECORD * rng.below(3) as usize];
    pack[0] = first;
    let output = output(rng, LONGEST);
    ask(line, pack, output)
}

fn ask(line: u32, pack: Vec<u8>, output: Vec<u8>) -> Case {
    let mut rest = line.to_be_bytes().to_vec();
    rest.extend((output.len() as u32).to_be_bytes());
    rest.extend(output);
    Case { kind: CONVERT, pack, rest, ..Case::default() }
}

/// As long as the pack, one byte shorter or longer, none, or of another length.
fn output(rng: &mut Rng, pack: usize) -> Vec<u8> {
    let length = match rng.below(10) {
        0..=3 => pack,
        4 | 5 => pack + rng.between(1, 200) as usize,
        6 => pack + 1,
        7 => pack.saturating_sub(1),
        8 => pack + 64,
        _ => rng.pick(&[0, pack / 2, pack.saturating_sub(64)]),
    };
    (0..length.min(LONGEST)).map(|_| rng.below(256) as u8).collect()
}
