//! Packs from the other make of machine.
use crate::{library, Refusal};

/// Writes a station's pack with every number turned round, from high byte first to low byte first or back, into the first bytes of `out`.
///
/// The other bytes stay, and on a refusal all of them do: [`Refusal::Length`], [`Refusal::OutputTooShort`], [`Refusal::TableOutOfPlace`] or
/// [`Refusal::StrayByte`].
pub fn convert_enclave(pack: &[u8], out: &mut [u8]) -> Result<(), Refusal> {
    library::convert(library::convert_enclave_image, pack, out).map(|_| ())
}

/// Does the same as [`convert_enclave`] with a line's pack.
pub fn convert_federate(pack: &[u8], out: &mut [u8]) -> Result<(), Refusal> {
    library::convert(library::convert_federate_image, pack, out).map(|_| ())
}
