//! The original, unchanged, over stand-ins for what it imports.

/// Stands in for the one type that the original takes from its hv_defs.
pub mod hv_defs {
    #[derive(Debug, Clone, Copy, PartialEq, Eq)]
    pub enum Vtl {
        Vtl0,
    }
}

#[allow(clippy::all)]
mod text {
    include!(concat!(env!("OUT_DIR"), "/masks.rs"));
}
pub use text::extract_individual_masks;

include!(concat!(env!("OUT_DIR"), "/module.rs"));

pub use range_map_vec::RangeMap;
pub use tracing::take_warnings;

/// The checksum (SHA-256) of the page_table.rs that was compiled.
pub const PAGE_TABLE: &str = env!("ORIGINAL_PAGE_TABLE");
