//! Stand-in for the RTI image: types that view.rs names and the check never reaches.
use super::{BoundaryId, FederateIndex, SliceRange, TinyMapRef};

tinymap::key_type!(pub RtiRouteIndex);
tinymap::key_type!(pub NameIndex);

pub type IdentityTable<'a, K> = TinyMapRef<'a, K, &'a str>;

#[derive(Clone, Debug, PartialEq, Eq)]
pub struct RtiDependency(FederateIndex);

impl RtiDependency {
    pub fn source(&self) -> FederateIndex {
        self.0
    }
}

#[derive(Clone, Debug, PartialEq, Eq)]
pub struct RtiMemberImage {
    pub direct_incoming: SliceRange<RtiDependency>,
    pub transitive_incoming: SliceRange<RtiDependency>,
    pub affected_downstream: SliceRange<FederateIndex>,
}

#[derive(Clone, Debug, PartialEq, Eq)]
pub struct RtiRouteImage<'a> {
    pub boundary: BoundaryId<'a>,
    pub flow: NameIndex,
    pub transport_capability: NameIndex,
    pub codec_capability: NameIndex,
    pub source: FederateIndex,
    pub target: FederateIndex,
    pub physical_input: Option<NameIndex>,
    pub physical_output: Option<NameIndex>,
}

impl RtiRouteImage<'_> {
    pub fn delay_nanos(&self) -> u64 {
        0
    }
}

#[derive(Clone, Debug, PartialEq, Eq)]
pub struct RtiImage<'a> {
    pub members: TinyMapRef<'a, FederateIndex, RtiMemberImage>,
    pub routes: TinyMapRef<'a, RtiRouteIndex, RtiRouteImage<'a>>,
    pub dependencies: &'a [RtiDependency],
    pub affected_downstream: &'a [FederateIndex],
    pub flows: IdentityTable<'a, NameIndex>,
    pub physical_boundaries: IdentityTable<'a, NameIndex>,
    pub transport_capabilities: IdentityTable<'a, NameIndex>,
    pub codec_capabilities: IdentityTable<'a, NameIndex>,
}
