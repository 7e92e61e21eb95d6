//! Stands where broodmap's `bases/mod.rs` stands, so that the unchanged files find what they import
//! from `super`.
//!
//! The constants and `MiningResource` are taken from `broodmap-analysis/src/bases/mod.rs` and
//! `selection.rs`. Of `MiningResource` only the member that `clustering.rs` reads is kept.

#[path = "../../broodmap/broodmap-analysis/src/bases/clustering.rs"]
mod clustering;
#[path = "../../broodmap/broodmap-analysis/src/bases/proximity.rs"]
pub(crate) mod proximity;
pub(crate) mod unchanged;

// `mod probed`: the copy of `proximity.rs` that `build.rs` writes.
include!(concat!(env!("OUT_DIR"), "/probed_module.rs"));

const MAX_RESOURCES: usize = 512;
const CLUSTER_RADIUS_CELLS: u16 = 32;

mod selection {
    use crate::WalkPosition;

    #[derive(Debug, Clone)]
    pub(super) struct MiningResource {
        pub(super) access: Vec<WalkPosition>,
    }
}
