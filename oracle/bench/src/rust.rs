//! boomerang's check over tables that were read from a pack, and behind it that of the deadlines, which boomerang lacks.
use crate::decode::Tables;
use crate::rules;
use boomerang_runtime::image::{EnclaveImage, EnclaveImageView, FederateImage, FederateImageView};
use pack::corpus::{Case, Kind};
use std::hint::black_box;

/// From the pack to the answer: accepted or not. None where the tables cannot be read.
pub fn with_decoding(case: &Case) -> Option<bool> {
    let tables = Tables::of(case)?;
    let passed = match case.kind()? {
        Kind::Enclave => EnclaveImageView::new(tables.image(0)).is_ok(),
        Kind::Federate => federate(tables.federate()?, &tables.images()),
    };
    Some(passed && tables.deadlines_pass())
}

/// The same with the packing rules first: the answer that is asked for.
pub fn with_rules(case: &Case) -> Option<bool> {
    match rules::refusal(case) {
        Some(_) => Some(false),
        None => with_decoding(case),
    }
}

fn federate(row: &FederateImage, images: &[EnclaveImage]) -> bool {
    FederateImageView::new(row.clone(), images).is_ok()
}

/// Images whose tables are at hand, to be checked many times.
pub struct Decoded<'t> {
    tables: &'t Tables<'t>,
    federate: Option<&'t FederateImage<'t>>,
    images: Vec<EnclaveImage<'t>>,
}

impl<'t> Decoded<'t> {
    pub fn of(tables: &'t Tables<'t>) -> Self {
        Decoded { tables, federate: tables.federate(), images: tables.images() }
    }

    /// Accepted or not.
    pub fn check(&self) -> bool {
        let passed = match self.federate {
            Some(row) => federate(row, black_box(&self.images)),
            None => EnclaveImageView::new(black_box(&self.images[0]).clone()).is_ok(),
        };
        passed && self.tables.deadlines_pass()
    }
}
