//! This check by its binding for Rust, and its two tests of a text from their static library.
use check::Answer;
use image_check::{check_enclave, check_federate, check_federate_night, convert_enclave, convert_federate};
use pack::corpus::{Case, Kind, NIGHT};

extern "C" {
    fn is_utf8_text(text: *const u8, len: usize) -> bool;
    fn valid_id_text(text: *const u8, len: usize) -> bool;
}

/// The answer, as a host gets it.
pub fn run(case: &Case) -> image_check::Answer {
    let check = match case.kind() {
        _ if case.kind == NIGHT => check_federate_night,
        Some(Kind::Federate) => check_federate,
        _ => check_enclave,
    };
    check(&case.pack, &case.batch, &case.house)
}

/// The same as the oracle says it.
pub fn answer(case: &Case) -> Answer {
    match run(case) {
        image_check::Answer::Enclave { links } => Answer::Accepted { stations: None, links },
        image_check::Answer::Federate { enclaves, links } => {
            Answer::Accepted { stations: Some(enclaves.into()), links }
        }
        image_check::Answer::Refused(refusal) => Answer::Refused(refusal.numbers().to_vec()),
    }
}

/// The converter's refusal, or none where the output has the pack turned.
pub fn convert(pack: &[u8], kind: Kind, output: &mut [u8]) -> Option<Vec<u64>> {
    let convert = match kind {
        Kind::Enclave => convert_enclave,
        Kind::Federate => convert_federate,
    };
    convert(pack, output).err().map(|refusal| refusal.numbers().to_vec())
}

pub fn is_utf8(text: &[u8]) -> bool {
    // The pointer comes with the length of its slice.
    unsafe { is_utf8_text(text.as_ptr(), text.len()) }
}

pub fn valid_id(text: &[u8]) -> bool {
    // The pointer comes with the length of its slice.
    unsafe { valid_id_text(text.as_ptr(), text.len()) }
}
